'use strict';
// Gives to others: `States` (the boxes at the end of each step, and at moments within one), `Boxes`, `allChanges`, and lengths as text.
// The boxes of a tick, unpacked from differences (boxes.py says how they are packed), with clips, visible parts, hits and changes.
// All numbers are units of 1/64 px; rectangles are [left, top, right, bottom] in the coordinates of `top`'s viewport.

const UNITS = 64;
const WHOLE = 10000;             // the initial device pixel ratio, in hundredths of a percent
const KEPT_EVERY = 50;           // one step in so many is kept whole
const ON_PAGE = -1, ON_SCREEN = -2;
const NO_EDGES = [0, 0, 0, 0, 0, 0, 0, 0];

// Exact pixels, as the trace prints them.
function px(units) {
  const all = Math.abs(units), rest = all % UNITS, whole = (units < 0 ? '-' : '') + Math.floor(all / UNITS);
  return rest ? whole + '.' + String(rest * 15625).padStart(6, '0').replace(/0+$/, '') : whole;
}
const percent = hundredths => `${hundredths / 100}%`;
const sizeText = (width, height) => `${px(width)} \u00d7 ${px(height)}`;
const widthOf = rectangle => rectangle[2] - rectangle[0];
const heightOf = rectangle => rectangle[3] - rectangle[1];
const rectangleText = (r, origin) => [r[0] - origin[0], r[1] - origin[1], r[2] - r[0], r[3] - r[1]].map(px).join(' ');
const common = (a, b) => [Math.max(a[0], b[0]), Math.max(a[1], b[1]), Math.min(a[2], b[2]), Math.min(a[3], b[3])];
const isCrossed = r => r[0] > r[2] || r[1] > r[3];
const isSame = (a, b) => a === b || Boolean(a && b) && a.every((number, at) => number === b[at]);
const holds = (r, x, y) => r[0] <= x && x < r[2] && r[1] <= y && y < r[3];

class States {
  constructor(data) {
    this.data = data;
    this.kept = [];
    this.unpacked = new Map();
    this.framed = new Map(data.documents.map((document, number) => [document[2], number]));
  }
  // The boxes at the end of this step, or null if they were left out.
  at(place) {
    if (place < 0 || !this.data.steps[place] || !this.data.steps[place].boxes) return null;
    if (!this.unpacked.has(place)) {
      if (this.unpacked.size > 8) this.unpacked.clear();
      this.unpacked.set(place, new Boxes(this.packed(place), this.framed, this.data));
    }
    return this.unpacked.get(place);
  }
  // The boxes at a moment within a step: those after its moment of this number, or as the step before ended for -1.
  within(place, moment) {
    const moments = this.data.steps[place].moments || [];
    if (moment < 0) return this.at(place - 1) || this.at(place);
    const key = place + '/' + moment;
    if (!this.unpacked.has(key)) {
      if (this.unpacked.size > 8) this.unpacked.clear();
      const before = place > 0 ? copied(this.packed(place - 1)) : emptyState();
      this.unpacked.set(key, new Boxes(moments.slice(0, moment + 1).reduce((state, one) => applied(state, one[1]), before), this.framed, this.data));
    }
    return this.unpacked.get(key);
  }
  packed(place) {
    let from = Math.min(Math.floor(place / KEPT_EVERY), this.kept.length - 1);
    let state = from < 0 ? emptyState() : copied(this.kept[from]);
    for (let at = from < 0 ? 0 : from * KEPT_EVERY + 1; at <= place; at++) {
      state = applied(state, this.data.steps[at].boxes);
      if (at === this.kept.length * KEPT_EVERY) this.kept.push(copied(state));
    }
    return state;
  }
}
const emptyState = () => ({ ratio: WHOLE, documents: new Map(), elements: new Map(), children: new Map(), observed: new Map() });
function copied(state) {
  return { viewport: state.viewport, ratio: state.ratio, leftOut: state.leftOut, documents: new Map(state.documents),
    elements: new Map(state.elements), children: new Map(state.children), observed: new Map(state.observed) };
}
function applied(state, difference) {
  if (difference.viewport) state.viewport = difference.viewport;
  if ('ratio' in difference) state.ratio = difference.ratio;
  if ('leftOut' in difference) state.leftOut = difference.leftOut;
  for (const part of ['documents', 'elements', 'children', 'observed']) {
    for (const [number, value] of Object.entries(difference[part] || {})) {
      if (value === null) state[part].delete(Number(number));
      else state[part].set(Number(number), value);
    }
  }
  return state;
}

// The boxes at one moment. `boxes` has a record for each element with a box, `reasons` says why any other has none; `order` is the tree
// as it is listed: documents and elements with their levels.
class Boxes {
  constructor(packed, framed, data) {
    Object.assign(this, { packed, framed, data, boxes: new Map(), reasons: new Map(), order: [], viewports: [], parents: new Map() });
    const whole = [0, 0, packed.viewport[0], packed.viewport[1]];
    this.document(0, whole, whole, 0);
  }
  name(element) { return this.data.elements[element][0]; }
  get ratio() { return this.packed.ratio; }
  // A side of a content box in device pixels: rounded to the nearest whole number, halves up.
  devicePixels(units) { return Math.floor((units * this.ratio + UNITS * WHOLE / 2) / (UNITS * WHOLE)); }
  document(number, viewport, window, level) {
    const [root, left, top, most, mostDown] = this.packed.documents.get(number);
    this.viewports.push({ number, rectangle: viewport, window, scroll: [left, top, most, mostDown] });
    this.order.push({ document: number, level });
    const corners = new Map([[root, [viewport[0] - left, viewport[1] - top]]]);
    const waiting = root < 0 ? [] : [[root, 1]];
    while (waiting.length) {
      const [element, depth] = waiting.pop(), record = this.packed.elements.get(element);
      this.order.push({ element, level: level + depth });
      if (typeof record === 'string') this.reasons.set(element, record);
      else this.place(element, record, corners, { number, viewport, window, depth });
      const children = this.packed.children.get(element) || [];
      for (let at = children.length - 1; at >= 0; at--) {
        this.parents.set(children[at], element);
        waiting.push([children[at], depth + 1]);
      }
      const inner = this.framed.get(element);
      if (this.boxes.has(element) && inner !== undefined && this.packed.documents.has(inner)) this.inFrame(element, inner, level + depth + 1);
    }
  }
  inFrame(element, inner, level) {
    const box = this.boxes.get(element);
    this.document(inner, box.content, common(box.window, box.content), level);
  }
  place(element, record, corners, document) {
    const [x, y, width, height, edges, overflow, scroll, holder] = record, corner = corners.get(element), parent = this.parents.get(element);
    const left = corner[0] + x, top = corner[1] + y, rectangle = [left, top, left + width, top + height];
    const above = holder > 0 ? holder - 1 : holder === ON_PAGE || holder === ON_SCREEN ? undefined : parent;
    const window = above === undefined ? document.window : this.boxes.get(above).innerWindow;
    const padding = inset(rectangle, edges || NO_EDGES, 1), content = inset(rectangle, edges || NO_EDGES, 2);
    const seen = common(rectangle, window);
    this.boxes.set(element, { rectangle, padding, content, window, innerWindow: overflow ? common(window, padding) : window, edges: edges || NO_EDGES,
      seen: isCrossed(seen) ? null : seen, overflow: overflow || '', scroll: scroll || null, above, document: document.number,
      origin: document.viewport, depth: document.depth, holder: holder || 0, record });
    this.cornersOf(element, corners);
  }
  // The points from which the boxes in an element are measured: its parent's edge, and the bottom of the sibling before it.
  cornersOf(element, corners) {
    const { rectangle, scroll } = this.boxes.get(element);
    const left = rectangle[0] - (scroll ? scroll[0] : 0);
    let top = rectangle[1] - (scroll ? scroll[1] : 0);
    for (const child of this.packed.children.get(element) || []) {
      corners.set(child, [left, top]);
      const record = this.packed.elements.get(child);
      if (typeof record !== 'string') top += record[1] + record[3];
    }
  }
  // What clips an element between it and the viewport of `top`, nearest first: what it is, its rectangle, and what it leaves.
  clips(element) {
    const found = [];
    let box = this.boxes.get(element), left = box.rectangle;
    const add = (said, rectangle, more) => { left = common(left, rectangle); found.push({ said, rectangle, left, ...more }); };
    for (;;) {
      for (let at = box.above; at !== undefined; at = this.boxes.get(at).above) {
        if (this.boxes.get(at).overflow) add('padding box of', this.boxes.get(at).padding, { element: at });
        box = this.boxes.get(at);
      }
      const viewport = this.viewports.find(one => one.number === box.document), frame = this.data.documents[box.document][2];
      add('viewport of', viewport.rectangle, { document: box.document });
      if (frame < 0) return found;
      box = this.boxes.get(frame);
    }
  }
  // The elements that are visible at a point, topmost first.
  hits(x, y) {
    const found = [];
    for (const { element } of this.order) {
      const box = this.boxes.get(element);
      if (box && holds(box.rectangle, x, y) && holds(box.window, x, y)) found.push(element);
    }
    return found.reverse();
  }
  around(x, y) {
    return this.order.filter(({ element }) => this.boxes.has(element) && holds(this.boxes.get(element).rectangle, x, y)).map(one => one.element).reverse();
  }
}
function inset(rectangle, edges, layers) {
  const by = side => edges[side] + (layers > 1 ? edges[4 + side] : 0);
  return [rectangle[0] + by(3), rectangle[1] + by(0), rectangle[2] - by(1), rectangle[3] - by(2)];
}

// What changed in a box, in words, the most telling first. A box that only moved along with what it is in or after has `along`.
function changesOf(element, before, after) {
  const old = before.boxes.get(element), now = after.boxes.get(element), words = [];
  if (!old && !now) return words;
  if (!old) return ['new'];
  if (!now) return ['gone'];
  if (widthOf(old.rectangle) !== widthOf(now.rectangle) || heightOf(old.rectangle) !== heightOf(now.rectangle)) words.push('resized');
  if (!isSame(old.edges, now.edges)) words.push('edges');
  if (old.overflow !== now.overflow) words.push('overflow');
  if (!isSame(old.scroll && old.scroll.slice(0, 2), now.scroll && now.scroll.slice(0, 2))) words.push('scrolled');
  if (old.record[0] !== now.record[0] || old.record[1] !== now.record[1] || old.above !== now.above) words.push('moved');
  if (!old.seen !== !now.seen) words.push(now.seen ? 'comes into view' : 'leaves the view');
  if (!words.includes('moved') && (old.rectangle[0] !== now.rectangle[0] || old.rectangle[1] !== now.rectangle[1])) words.push('along');
  return words;
}
function allChanges(before, after) {
  const found = new Map();
  if (!before || !after) return found;
  for (const element of new Set([...after.boxes.keys(), ...before.boxes.keys()])) {
    const words = changesOf(element, before, after);
    if (words.length) found.set(element, words);
  }
  return found;
}
