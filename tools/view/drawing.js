'use strict';
// Gives to others: `Drawing`, the boxes in SVG, to scale; `meeting` is what a line `intersect` was found with, or null.
// The boxes of a tick in SVG, to scale. Numbers in the drawing are CSS pixels of the page; the size of text and marks follows the scale
// at which it is shown.

const THIN = 0.01;               // stands for a width or height of 0, which SVG wouldn't draw
const AROUND = 17;               // pixels of the screen around the drawing
const LABELS = 250;              // at most this many names
const LETTER = 6.1, LINE = 13;   // width of a letter and height of a line in a name, in pixels of the screen
const SPOTS = 40, LINES = 6;     // tried for a name
const GHOSTS = 200;
const VIEWS = ['viewport', 'page', 'box'];
const TOLD_CHANGES = ['new', 'resized', 'scrolled', 'moved', 'edges', 'overflow', 'comes into view', 'leaves the view'];

const units = value => value / UNITS;
const round = value => Math.round(value * 1000) / 1000;
const lengthOf = value => round(Math.max(THIN, units(value)));
const svgRectangle = r => html`x="${round(units(r[0]))}" y="${round(units(r[1]))}" width="${lengthOf(widthOf(r))}" height="${lengthOf(heightOf(r))}"`;
const rect = (kind, r) => html`<rect class="${kind}" ${svgRectangle(r)}/>`;
const overlap = (a, b) => a[0] < b[2] && b[0] < a[2] && a[1] < b[3] && b[1] < a[3];
const union = (a, b) => [Math.min(a[0], b[0]), Math.min(a[1], b[1]), Math.max(a[2], b[2]), Math.max(a[3], b[3])];
function around(r) {
  const by = Math.max(widthOf(r), heightOf(r), 40 * UNITS) / 4;
  return [r[0] - by, r[1] - by, r[2] + by, r[3] + by];
}
function seenSaid(box) {
  if (!box.seen) return 'not visible';
  return isSame(box.seen, box.rectangle) ? 'all of it visible' : `visible ${rectangleText(box.seen, box.origin)}`;
}

class Drawing {
  constructor(data, place) { Object.assign(this, { data, place, view: 'viewport', zoom: 1, boxes: null, labels: [], lastPoint: null, meeting: null, apart: new Set() }); }

  // ---- the whole drawing ----

  draw(boxes, before, changes, chosen) {
    this.boxes = boxes;
    if (!boxes) {
      this.place.innerHTML = '<p class="nothing">No boxes here.</p>';
      return;
    }
    const room = this.place.clientWidth || 600, most = Math.max(240, Math.min(window.innerHeight * 0.62, 760));
    const frame = this.frame(chosen, room, most), scale = Math.min(room / frame[2], most / frame[3]);
    Object.assign(this, { before, changes, scale, frameNow: frame, height: Math.max(60, frame[3] * scale) });
    this.first = boxes.order.map(row => row.element).find(element => boxes.boxes.has(element));
    this.put();
    this.choose(chosen);
  }
  put() { this.place.innerHTML = shown(this.svg()); }
  // The part of the page that is drawn: [left, top, width, height] in its pixels.
  frame(chosen, room, most) {
    const all = [...this.boxes.boxes.values()].map(box => box.rectangle), box = this.boxes.boxes.get(chosen);
    let r = this.boxes.viewports[0].rectangle;
    if (this.view === 'viewport' && this.meeting && this.meeting.root && !isCrossed(this.meeting.root)) r = union(r, this.meeting.root);
    if (this.view === 'page') r = all.reduce(union, r);
    else if (this.view === 'box' && box) r = around(box.rectangle);
    const size = [widthOf(r), heightOf(r)].map(length => Math.max(1, units(length)) / this.zoom);
    const scale = Math.min((room - 2 * AROUND) / size[0], (most - 2 * AROUND) / size[1]), pad = AROUND / scale;
    const middle = [units(r[0] + r[2]) / 2, units(r[1] + r[3]) / 2];
    return [middle[0] - size[0] / 2 - pad, middle[1] - size[1] / 2 - pad, size[0] + 2 * pad, size[1] + 2 * pad];
  }
  svg() {
    const elements = this.boxes.order.map(row => row.element).filter(element => this.boxes.boxes.has(element));
    return html`<svg id="drawing" role="group" aria-label="Boxes, drawn to scale" viewBox="${this.frameNow.map(round).join(' ')}" height="${
      Math.round(this.height)}">${this.boxes.viewports.map(one => this.viewport(one))}${elements.map(element => this.shape(element))}<g aria-hidden="true">${
      this.ghosts()}</g><g class="over" aria-hidden="true"></g><g class="labels" aria-hidden="true"></g></svg>`;
  }
  viewport({ rectangle, scroll }) {
    return html`<g class="viewport"><rect ${svgRectangle(rectangle)}/>${this.thumbs(rectangle, scroll)}</g>`;
  }
  // Bars at the edges, which show the scroll position.
  thumbs(r, [left, top, mostLeft, mostTop]) {
    const one = UNITS / this.scale, parts = [];
    const bar = (length, offset, most) => { const size = Math.max(8 * one, length * length / (length + most)); return [(length - size) * offset / most, size]; };
    if (mostTop > 0 && heightOf(r) > 0) {
      const [from, size] = bar(heightOf(r), top, mostTop);
      parts.push(rect('thumb', [r[2] - 5 * one, r[1] + from, r[2] - one, r[1] + from + size]));
    }
    if (mostLeft > 0 && widthOf(r) > 0) {
      const [from, size] = bar(widthOf(r), left, mostLeft);
      parts.push(rect('thumb', [r[0] + from, r[3] - 5 * one, r[0] + from + size, r[3] - one]));
    }
    return parts;
  }
  shape(element) {
    const box = this.boxes.boxes.get(element), kind = this.data.elements[element][1], hasArea = box.seen && widthOf(box.seen) > 0 && heightOf(box.seen) > 0;
    const names = ['box', kind, !box.seen && 'unseen', this.changeWords(element).length > 0 && 'changed', this.apart.has(element) && 'apart']
      .filter(Boolean).join(' ');
    return html`<g class="${names}" data-element="${element}" role="button" tabindex="-1" aria-label="${this.said(element, box)}">${
      rect('outline', box.rectangle)}${hasArea && rect('seen', box.seen)}${kind === 'image' && this.cross(box.rectangle)}${
      box.overflow && rect('edge', box.padding)}${box.scroll && this.thumbs(box.padding, box.scroll)}</g>`;
  }
  cross(r) {
    const [left, top, right, bottom] = r.map(value => round(units(value)));
    return html`<path class="cross" d="M${left} ${top}L${right} ${bottom}M${right} ${top}L${left} ${bottom}"/>`;
  }
  changeWords(element) { return (this.changes.get(element) || []).filter(one => TOLD_CHANGES.includes(one)); }
  // A box in words, for screen readers.
  said(element, box) {
    const [name, kind] = this.data.elements[element], [left, top, width, height] = rectangleText(box.rectangle, box.origin).split(' ');
    return [
      name, kind, `${width} by ${height} at ${left} ${top}`, seenSaid(box), box.overflow && `clips, overflow ${box.overflow}`,
      box.scroll && (box.scroll[0] || box.scroll[1]) && `scrolled to ${px(box.scroll[0])} ${px(box.scroll[1])}`, ...this.changeWords(element),
      this.apart.has(element) && this.apartSaid(),
    ].filter(Boolean).join(', ');
  }
  apartSaid() { return `${this.data.as.name} differs`; }
  // Where boxes were that are resized, moved or gone.
  ghosts() {
    const isElsewhere = ([, words]) => ['resized', 'moved', 'gone'].some(one => words.includes(one));
    const places = [...this.changes].filter(isElsewhere).map(([element]) => this.before.boxes.get(element)).filter(Boolean);
    return places.slice(0, GHOSTS).map(old => rect('ghost', old.rectangle));
  }

  // ---- the chosen box, what clips it, and the names ----

  choose(chosen) {
    if (!this.boxes) return;
    const svg = this.place.firstElementChild, stop = this.boxes.boxes.has(chosen) ? chosen : this.first;
    for (const old of svg.querySelectorAll('.box.chosen, .box[tabindex="0"]')) {
      old.classList.remove('chosen');
      old.removeAttribute('aria-pressed');
      old.setAttribute('tabindex', -1);
    }
    const now = svg.querySelector(`.box[data-element="${stop}"]`);
    if (now) now.setAttribute('tabindex', 0);
    if (now && stop === chosen) {
      now.classList.add('chosen');
      now.setAttribute('aria-pressed', true);
    }
    Object.assign(this, { chosen, labels: [] });
    svg.querySelector('.over').innerHTML = shown(this.over());
    svg.querySelector('.labels').innerHTML = shown(this.names());
  }
  // The root's rectangle of an intersection, with its margin, what clips the target, and what is left of it.
  meetingParts() {
    const { root, own, clips, cut } = this.meeting;
    if (!root) return '';
    const seen = list => list.filter(r => !isCrossed(r));
    return html`${!isSame(root, own) && seen([own]).map(r => rect('root-own', r))}${seen([root]).map(r => rect('root', r))}${
      clips.map(([clip]) => seen([clip]).map(r => rect('clip', r)))}${cut && rect('cut', cut)}`;
  }
  over() {
    if (this.meeting) {
      const target = this.boxes.boxes.get(this.chosen);
      return html`${this.meetingParts()}${target && rect('picked', target.rectangle)}`;
    }
    const box = this.boxes.boxes.get(this.chosen), clips = box ? this.boxes.clips(this.chosen).map(clip => clip.rectangle) : [];
    return box && html`${clips.filter(r => !isCrossed(r)).map(r => rect('clip', r))}${rect('picked', box.rectangle)}`;
  }
  // Names, placed so that none covers another: viewports first, then the chosen box, those that changed, and the others.
  names() {
    const isChanged = element => this.changeWords(element).length > 0, all = this.boxes.order.map(row => row.element);
    const boxes = [this.chosen, ...[...this.changes.keys()].filter(isChanged), ...all.filter(element => this.boxes.boxes.has(element) && !isChanged(element))];
    return html`${this.boxes.viewports.map(one => this.viewportName(one))}${[...new Set(boxes)].map(element => this.nameOf(element, isChanged(element)))}`;
  }
  viewportName({ number: at, rectangle }) {
    const text = `viewport of ${this.data.documents[at][0]}, ${sizeText(widthOf(rectangle), heightOf(rectangle))}`;
    const name = this.label(rectangle, text, 'of-viewport', true);
    return at || this.boxes.boxes.size ? name : html`${name}${this.label(rectangle, 'the page has no box', 'of-viewport', false)}`;
  }
  nameOf(element, isChanged) {
    const box = this.boxes.boxes.get(element), kind = element === this.chosen ? 'of-chosen' : isChanged ? 'of-changed' : '';
    if (!box || !box.seen && !kind) return '';
    const apart = this.apart.has(element) ? [this.apartSaid()] : [];
    const text = [this.data.elements[element][0], ...this.changeWords(element).slice(0, 1), ...apart].join(' \u00b7 ') + (box.seen ? '' : ', not visible');
    return this.label(box.seen || box.rectangle, text, kind, false) || this.label(box.rectangle, text, kind, false);
  }
  label(rectangle, text, kind, isOutside) {
    if (this.labels.length >= LABELS) return '';
    const [left, top, right, bottom] = rectangle.map((value, at) => (units(value) - this.frameNow[at % 2]) * this.scale);
    const wide = text.length * LETTER * (kind === 'of-changed' || kind === 'of-chosen' ? 1.1 : 1) + 6, one = 1 / this.scale;
    const spots = isOutside ? [[left, top - LINE - 1], [left, bottom + 1], [left + 2, top + 2]] : this.spots(left, top, right, bottom, wide);
    const isFree = ([x, y]) => x >= -1 && y >= 0 && y + LINE <= this.height + 1 && !this.labels.some(other => overlap(other, [x, y, x + wide, y + LINE]));
    const spot = spots.find(isFree);
    if (!spot) return '';
    this.labels.push([spot[0], spot[1], spot[0] + wide, spot[1] + LINE]);
    const x = round(this.frameNow[0] + (spot[0] + 3) * one), y = round(this.frameNow[1] + (spot[1] + 10) * one);
    return html`<text class="${kind}" x="${x}" y="${y}" font-size="${round(11 * one)}">${text}</text>`;
  }
  // Along the top edge, past what is there, then line by line below; for a flat box, outside its edges.
  spots(left, top, right, bottom, wide) {
    if (right - left < wide) return [];
    if (bottom - top < LINE) return [[left, bottom + 1], [left, top - LINE - 1]];
    const found = [];
    for (let y = top + 1, lines = 0; y + LINE <= bottom + 1 && lines < LINES; y += LINE, lines++) {
      for (let x = left; x + wide <= right + 1 && found.length < SPOTS;) {
        found.push([x, y]);
        const other = this.labels.find(one => overlap(one, [x, y, x + wide, y + LINE]));
        if (!other) break;
        x = other[2] + 2;
      }
    }
    return found;
  }

  // ---- pointing ----

  // The point of the page, in units, at a place on the screen.
  pointAt(event) {
    const matrix = document.getElementById('drawing').getScreenCTM().inverse(), point = new DOMPoint(event.clientX, event.clientY).matrixTransform(matrix);
    return [Math.floor(point.x * UNITS), Math.floor(point.y * UNITS)];
  }
  // The box at a point, or -1; if the same point is clicked again, the one below.
  picked([x, y], before) {
    const near = 3 * UNITS / this.scale, isAgain = this.lastPoint && Math.hypot(x - this.lastPoint[0], y - this.lastPoint[1]) < near;
    const seen = this.boxes.hits(x, y), found = seen.length ? seen : this.boxes.around(x, y);
    if (!isAgain) this.lastPoint = [x, y];
    if (!found.length) return -1;
    return isAgain && found.includes(before) ? found[(found.indexOf(before) + 1) % found.length] : found[0];
  }
}
