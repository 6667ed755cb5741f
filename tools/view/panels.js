'use strict';
// Gives to others: `Panels`, the parts around the drawing: the ticks, what changed, the chosen box, all boxes and the script.

const ROWS = 60;                 // rows of a list before a button for the others
const TREE_ROWS = 400;
const MANY = 24;                 // more ticks than this get an overview
const HISTORY = 40;
const DEEPEST = 12;              // levels of indentation
const SIZE_WORDS = ['resized', 'edges', 'overflow'];
const OWN_WORDS = ['new', 'gone', 'resized', 'edges', 'overflow', 'scrolled', 'moved'];

const cornerText = (rectangle, origin) => rectangleText(rectangle, origin).split(' ').slice(0, 2).join(' ');
const sizeOf = rectangle => sizeText(widthOf(rectangle), heightOf(rectangle));
const scrollText = scroll => scroll.slice(0, 2).map(px).join(' ');
const fact = (term, said) => html`<dt>${term}</dt><dd>${said}</dd>`;
const heads = names => html`<thead><tr>${names.map(name => html`<th scope="col">${name}</th>`)}</tr></thead>`;

class Panels {
  constructor(trace, sentences) {
    Object.assign(this, { trace, sentences, data: trace.data, whole: new Set() });
    this.index();
  }
  // The lines of the trace by element, and the step of each line.
  index() {
    this.byElement = new Map();
    this.placeOf = new Map();
    this.data.steps.forEach((step, place) => this.trace.linesOf(step).forEach(line => {
      this.placeOf.set(line, place);
      for (const element of new Set(this.trace.elements(line))) {
        if (!this.byElement.has(element)) this.byElement.set(element, []);
        this.byElement.get(element).push(line);
      }
    }));
  }
  documentName(number) { return this.data.documents[number][0]; }
  // The first items of a list, and a button for the others.
  some(key, items, row, most = ROWS, wrap = button => html`<tr class="others"><td colspan="5">${button}</td></tr>`) {
    const shownItems = this.whole.has(key) ? items : items.slice(0, most), others = items.length - shownItems.length;
    const button = html`<button type="button" data-more="${key}">Show ${number(others)} more</button>`;
    return html`${shownItems.map(row)}${others > 0 && wrap(button)}`;
  }

  // ---- the ticks ----

  stepName(step) {
    if (step.kind === 'tick') return `Tick ${number(step.number)}`;
    return step.kind === 'end' ? 'End' : step.number ? `Before tick ${number(step.number + 1)}` : 'Start';
  }
  stepTitle(step) {
    if (step.kind === 'end') return 'As the script ends';
    if (step.kind === 'start') return step.number ? `As tick ${number(step.number + 1)} begins` : 'Before the first tick';
    return html`Tick ${number(step.number)}${step.time !== null && `, at ${number(step.time)} ms`}${
      step.line > 0 && html` <small>${this.sentences.ref(step.line)}</small>`}`;
  }
  ticks() { return html`${this.data.steps.map((step, place) => this.tick(step, place))}`; }
  tick(step, place) {
    const badges = this.trace.badges(step), isTick = step.kind === 'tick';
    const said = `${this.stepName(step)}: ${badges.map(([, one]) => one).join(', ')}`;
    return html`<li><button type="button" class="tick${this.trace.isTrouble(step) && ' trouble'}" data-step="${place}" tabindex="-1" aria-label="${said}">
      <span class="number">${isTick ? number(step.number) : this.stepName(step)}</span>${isTick && step.time !== null && html` <span class="time">${
        number(step.time)} ms</span>`}
      <span class="badges">${badges.slice(0, 2).map(([kind, one]) => html`<span class="badge ${kind}">${one}</span> `)}</span></button></li>`;
  }
  // A bar for each tick, its height by the number of its lines in the trace, with a mark above it if something went wrong.
  overview() {
    const steps = this.data.steps, lines = steps.map(step => this.trace.linesOf(step).length), most = Math.log1p(Math.max(1, ...lines));
    const bar = place => `M${place} 40h.85v${-round(2 + 28 * Math.log1p(lines[place]) / most)}h-.85z`;
    const wrong = steps.map((step, place) => this.trace.isTrouble(step) ? place : -1).filter(place => place >= 0);
    const said = `Lines of the trace in each tick; something went wrong in ${counted(wrong.length, 'tick')}`;
    return html`<svg viewBox="0 0 ${steps.length} 40" preserveAspectRatio="none" role="img" aria-label="${said}">
      <rect class="cursor" x="0" y="0" width="1" height="40"/><path class="bars" d="${steps.map((step, place) => bar(place))}"/>
      <path class="marks" d="${wrong.map(place => bar(place) + `M${place} 0h.85v7h-.85z`)}"/></svg>
      <p>Lines of the trace in each tick. A mark above: a loop error, an exception or a limit.</p>`;
  }

  // ---- what changed ----

  changes(boxes, before, changes) {
    if (!boxes || !before) return html`<p class="after">${boxes ? 'There is nothing earlier to compare with.' : 'The boxes are left out here.'}</p>`;
    const own = [], view = [], along = [];
    for (const [element, words] of changes) {
      const kind = words.some(one => OWN_WORDS.includes(one)) ? own : words.some(one => one.endsWith('view')) ? view : along;
      kind.push([element, words]);
    }
    const documents = this.documentChanges(boxes, before), rank = ([, words]) => OWN_WORDS.findIndex(one => words.includes(one));
    own.sort((a, b) => rank(a) - rank(b));
    if (!documents.length && !changes.size) return html`<p class="after">No box changed.</p>`;
    return html`${documents}${own.length > 0 && this.changeTable('own', own, boxes, before)}${
      view.length > 0 && html`<h4>Came into view or left it because something else moved</h4>${this.changeTable('view', view, boxes, before)}`}${
      along.length > 0 && this.alongSaid(along)}`;
  }
  alongSaid(along) {
    const what = along.length === 1 ? '1 more box moved along with what it is' : `${number(along.length)} more boxes moved along with what they are`;
    return html`<p class="after">${what} in or after: ${along.slice(0, 6).map(([element], at) => html`${at > 0 && ', '}${
      this.sentences.thing(element)}`)}${along.length > 6 && ' \u2026'}</p>`;
  }
  documentChanges(boxes, before) {
    const found = [], ratios = [before.ratio, boxes.ratio].map(percent);
    if (ratios[0] !== ratios[1]) found.push(html`<p class="after">The device pixel ratio changed: ${ratios[0]} \u2192 ${sized(ratios[1])}</p>`);
    for (const now of boxes.viewports) {
      const old = before.viewports.find(one => one.number === now.number), name = bold(this.documentName(now.number));
      if (!old) continue;
      const sizes = [sizeOf(old.rectangle), sizeOf(now.rectangle)], scrolls = [scrollText(old.scroll), scrollText(now.scroll)];
      if (sizes[0] !== sizes[1]) found.push(html`<p class="after">The viewport of ${name} was resized: ${sizes[0]} \u2192 ${sized(sizes[1])}</p>`);
      if (scrolls[0] !== scrolls[1]) found.push(html`<p class="after">The document ${name} was scrolled: ${scrolls[0]} \u2192 ${sized(scrolls[1])}</p>`);
    }
    return found;
  }
  changeTable(key, rows, boxes, before) {
    const row = ([element, words]) => this.changeRow(element, words, before.boxes.get(element), boxes.boxes.get(element), boxes);
    return html`<table class="changes">${heads(['Box', 'Change', 'Before', 'Now'])}<tbody>${this.some('changes-' + key, rows, row)}</tbody></table>`;
  }
  changeRow(element, words, old, now, boxes) {
    const reason = boxes.reasons.get(element), gone = word(reason ? quoted(reason) : 'removed from the tree');
    return html`<tr><th scope="row">${this.sentences.thing(element)}</th><td>${words.filter(one => one !== 'along').join(', ')}</td><td>${
      old ? this.changed(old, words, now) : word('no box')}</td><td>${now ? this.changed(now, words, old) : gone}</td></tr>`;
  }
  // The properties of a box that differ from those in its other state.
  changed(box, words, other) {
    const parts = [];
    if (!other || words.some(one => SIZE_WORDS.includes(one))) parts.push(sizeOf(box.rectangle));
    if (words.includes('scrolled')) parts.push(box.scroll ? 'scrolled to ' + scrollText(box.scroll) : 'not a scroll container');
    if (!other || words.includes('moved')) parts.push('at ' + cornerText(box.rectangle, box.origin));
    if (words.some(one => one.endsWith('view'))) parts.push(seenSaid(box));
    return parts.join(', ');
  }

  // ---- the chosen box ----

  // `both` says, with an engine's model, whose boxes these are and what the other side's box is.
  chosen(element, place, boxes, both) {
    const [, kind, line] = this.data.elements[element], box = boxes && boxes.boxes.get(element), observed = boxes && boxes.packed.observed.get(element);
    const facts = [fact('created', html`${kind}, ${this.sentences.ref(line)} ${this.sentences.code(line)}`)];
    if (box) facts.push(...this.geometry(element, box, boxes, both));
    else if (boxes) facts.push(fact('box', html`none: ${quoted(boxes.reasons.get(element) || 'it isn\u2019t in a document that is shown')}`));
    if (both && both.boxes) facts.push(...this.otherSide(both, element, box));
    return html`<dl class="facts">${facts}</dl>${observed && this.observers(observed, box, boxes)}${box && this.clips(element, box, boxes)}${
      this.history(element)}${this.linesAbout(element, place)}`;
  }
  // The containing block of a box, if that isn't its parent.
  holder(box) {
    if (box.holder === ON_PAGE) return html`the page of ${bold(this.documentName(box.document))}`;
    return box.holder === ON_SCREEN ? html`the screen of ${bold(this.documentName(box.document))}` : this.sentences.thing(box.holder - 1);
  }
  // The box of the other side, if it is another one.
  otherSide(both, element, box) {
    const other = both.boxes.boxes.get(element), isAlike = box && other && isSame(box.rectangle, other.rectangle) || !box && !other;
    const scrolled = isAlike && box && box.scroll && other.scroll && !isSame(box.scroll.slice(0, 2), other.scroll.slice(0, 2));
    if (scrolled) return [fact(both.other, html`<b class="odd">scrolled to ${scrollText(other.scroll)}</b>`)];
    if (isAlike) return [fact(both.other, 'the same box')];
    return [fact(both.other, html`<b class="odd">${other ? `${sizeOf(other.rectangle)} at ${cornerText(other.rectangle, other.origin)}` : 'no box'}</b>`)];
  }
  geometry(element, box, boxes, both) {
    const r = box.rectangle, sides = from => box.edges.slice(from, from + 4), parent = boxes.parents.get(element);
    const most = box.scroll && box.scroll.slice(2).map(px).join(' ');
    return [
      fact(both ? 'border box, ' + both.own : 'border box', html`${sized(sizeOf(r))} at ${cornerText(r, box.origin)}`),
      box.holder !== 0 && fact('containing block', this.holder(box)),
      !isSame(box.content, r) && fact('content box', sizeOf(box.content)),
      sides(0).some(Boolean) && fact('border width', sides(0).map(px).join(' ')),
      sides(4).some(Boolean) && fact('padding', sides(4).map(px).join(' ')),
      box.overflow && fact('overflow', `${box.overflow}, clips its content`),
      box.scroll && fact('scrolled to', `${scrollText(box.scroll)} of ${most}`),
      fact('visible', isSame(box.seen, r) ? 'all of it' : box.seen ? rectangleText(box.seen, box.origin) : 'nothing'),
      fact('depth', html`${box.depth} in ${bold(this.documentName(box.document))}${parent !== undefined && html`, in ${this.sentences.thing(parent)}`}`),
    ];
  }
  observers(observed, box, boxes) {
    return html`<h4>Observed by</h4><ul class="observers">${observed.slice(0, 30).map(one => html`<li>${
      one[0] === 'resize' ? this.observation(one, box, boxes) : this.registration(one)}</li>`)}</ul>`;
  }
  registration([, observer, line, meets, index]) {
    return html`${bold(observer)}, ${this.sentences.ref(line)}: ${index < 0 ? 'not computed yet' : meets ? 'intersects its root' : 'doesn\u2019t intersect its root'}`;
  }
  observation([, observer, line, kind, told, width, height], box, boxes) {
    const now = this.sizeNow(kind, box, boxes), isReported = now[0] === width && now[1] === height, size = toldSize(kind, ...now);
    const state = !isReported ? html`; <b class="bad">it is ${size} now</b>, to be reported` : told ? ', as it is now' : `; it is ${size} now`;
    return html`${bold(observer)}, ${OBSERVED[kind]}, ${this.sentences.ref(line)}: ${
      told ? `last reported ${toldSize(kind, width, height)}` : 'nothing reported yet'}${state}`;
  }
  sizeNow(kind, box, boxes) {
    if (!box) return [0, 0];
    const sides = [widthOf, heightOf].map(length => length(kind === 'border' ? box.rectangle : box.content));
    return kind === 'device' ? sides.map(side => boxes.devicePixels(side)) : sides;
  }
  clips(element, box, boxes) {
    const row = clip => html`<tr><th scope="row">${clip.said} ${
      clip.element === undefined ? bold(this.documentName(clip.document)) : this.sentences.thing(clip.element)}</th><td>${
      rectangleText(clip.rectangle, [0, 0])}</td><td>${isCrossed(clip.left) ? word('nothing') : rectangleText(clip.left, [0, 0])}</td></tr>`;
    return html`<h4>What is visible of it</h4><table class="clips">${heads(['Clipped by', html`in ${bold('top')}`, 'leaves'])}<tbody>
      <tr><th scope="row">the box itself</th><td>${rectangleText(box.rectangle, [0, 0])}</td><td></td></tr>${boxes.clips(element).map(row)}</tbody></table>`;
  }
  // The steps in which the record of the box itself changes.
  placesOf(element) {
    const places = this.data.steps.map((step, place) => place);
    return places.filter(place => { const { boxes } = this.data.steps[place]; return boxes && boxes.elements && element in boxes.elements; });
  }
  history(element) {
    const places = this.placesOf(element), others = places.length - HISTORY;
    const button = place => html`<button type="button" class="to-step" data-step="${place}">${this.stepName(this.data.steps[place])}</button> `;
    return places.length > 0 && html`<h4>Its box changes in</h4><p class="history">${places.slice(0, HISTORY).map(button)}${
      others > 0 && `and ${number(others)} more`}</p>`;
  }
  linesAbout(element, place) {
    const lines = this.byElement.get(element) || [], isHere = line => this.placeOf.get(line) === place;
    const here = lines.filter(isHere), others = lines.filter(line => !isHere(line));
    if (!lines.length) return html`<h4>Lines of the trace about it</h4><p class="after">None.</p>`;
    return html`<h4>Lines of the trace about it <span class="count">${number(lines.length)}</span></h4>${here.length > 0 && this.lineTable('here', here)}${
      here.length > 0 && others.length > 0 && html`<p class="after">In other ticks:</p>`}${others.length > 0 && this.lineTable('others', others)}`;
  }
  lineTable(key, lines) {
    const row = line => html`<tr><th scope="row"><button type="button" class="to-line" data-to-line="${line}">${
      this.stepName(this.data.steps[this.placeOf.get(line)])}</button></th><td><code>${this.trace.text(line)}</code></td></tr>`;
    return html`<table class="lines"><tbody>${this.some(key, lines, row)}</tbody></table>`;
  }

  // ---- all boxes, and the script ----

  tree(boxes, wanted, chosen, changes) {
    if (!boxes) return html`<p class="after">The boxes are left out here.</p>`;
    const rows = boxes.order.filter(row => this.rowName(row).toLowerCase().includes(wanted.toLowerCase()));
    const list = this.some('tree', rows, row => row.element === undefined ? this.documentRow(row, boxes) : this.boxRow(row, boxes, chosen, changes),
      TREE_ROWS, button => html`<li class="others">${button}</li>`);
    return html`<ul class="tree" aria-label="Boxes">${list}</ul>${!rows.length && html`<p class="after">No box has such a name.</p>`}`;
  }
  rowName(row) { return row.element === undefined ? this.documentName(row.document) : this.trace.name(row.element); }
  documentRow(row, boxes) {
    const { rectangle, scroll } = boxes.viewports.find(one => one.number === row.document), most = scroll.slice(2).map(px).join(' ');
    const scrolled = scroll[2] + scroll[3] > 0 ? `, scrolled to ${scrollText(scroll)} of ${most}` : '';
    return html`<li style="--level:${Math.min(row.level, DEEPEST)}"><span class="document">${bold(this.rowName(row))} ${
      word(`document, viewport ${sizeOf(rectangle)}${scrolled}`)}</span></li>`;
  }
  boxRow(row, boxes, chosen, changes) {
    const box = boxes.boxes.get(row.element), changed = (changes.get(row.element) || []).filter(one => one !== 'along');
    const seen = box && !isSame(box.seen, box.rectangle) && word(box.seen ? 'partly visible' : 'not visible');
    return html`<li style="--level:${Math.min(row.level, DEEPEST)}"><button type="button" class="row" data-element="${row.element}"${
      row.element === chosen && html` aria-current="true"`}>${bold(this.rowName(row))} <span>${box ? sizeOf(box.rectangle) : word('no box')} ${seen} ${
      changed.length > 0 && html`<span class="change">${changed[0]}</span>`}</span></button></li>`;
  }
  script(running, chosen) {
    const script = this.data.script, lines = Array.isArray(script) ? script.map((text, at) => [at + 1, text]) : Object.entries(script);
    const names = line => [running.has(line) && 'ran', line === chosen && 'chosen'].filter(Boolean).join(' ');
    return html`<ol class="script">${lines.map(([line, text]) => html`<li value="${line}" id="script-${line}" class="${names(Number(line))}"><span class="gutter">${
      running.has(Number(line)) && 'ran'}</span><code>${text}</code></li>`)}</ol>`;
  }
}
