'use strict';
// What the page shows at first, and what clicks and keys do. It gives nothing to others.

const AFTER_SHOWN = act => requestAnimationFrame(() => requestAnimationFrame(act));

// ---- at first ----

function begin() {
  fill('source', source());
  fill('totals', totals());
  fill('ticks', panels.ticks());
  if (data.steps.length > MANY) fill('overview', panels.overview());
  fill('script-count', counted(data.scriptLines, 'line'));
  fill('notes', notes());
  if (data.as) document.querySelector('[data-side="engine"]').textContent = 'In ' + data.as.name;
  at('notes').hidden = !at('notes').textContent;
  at('trouble').disabled = !data.steps.some(step => trace.isTrouble(step));
  at('previous').disabled = at('next').disabled = data.steps.length < 2;
  document.body.classList.toggle('plain', !data.steps.some(step => step.boxes));
  if (!fromAddress(data.open)) choose({ place: first(), ...atFirst(first()) });
}
// The box that the first loop error of a step is about.
function atFirst(place) {
  const line = trace.linesOf(data.steps[place]).find(one => trace.isError(one) && trace.elements(one).length);
  return line === undefined ? {} : { element: trace.elements(line)[0] };
}
function source() {
  const unbuilt = html`the reference program\u2019s, because the proved one isn\u2019t built (<code>bin/build</code> builds it).`;
  return html`Trace: ${data.trace === 'proved' ? 'the proved program\u2019s.' : unbuilt} ${
    data.steps.some(step => step.boxes) && 'Boxes and causes: the reference program\u2019s.'}${
    data.checked !== null && ` The proved program gives the same boxes at the end of tick ${data.checked}.`}`;
}
function totals() {
  const sum = key => data.steps.reduce((all, step) => all + trace.counts(step)[key], 0), isCut = data.lineCount > data.lines.length;
  const parts = [counted(data.ticks, 'tick'), counted(data.lineCount, 'line') + ' of the trace'];
  for (const [key, one, kind] of [['errors', 'loop error', 'bad'], ['throws', 'exception', 'odd'], ['limits', 'limit', 'bad'], ['faults', 'syntax error', 'bad']]) {
    if (sum(key)) parts.push(html`<b class="${kind}">${counted(sum(key), one)}${isCut && ' or more'}</b>`);
  }
  return parts.map((part, place) => html`${place > 0 && ' \u00b7 '}${part}`);
}
function notes() {
  const wanted = Number(address().get('tick')) || data.open || 0, found = data.notes.slice();
  const left = Math.max(0, ...data.steps.map(step => step.boxes && step.boxes.leftOut || 0));
  if (wanted > data.ticks) found.unshift(`The script has ${counted(data.ticks, 'tick')}; there is no tick ${wanted}.`);
  if (left) found.push(`Up to ${counted(left, 'element')} of a tick ${left === 1 ? 'is' : 'are'} left out of the drawing and the lists.`);
  return found.length ? html`<ul>${found.map(one => html`<li>${quoted(one)}</li>`)}</ul>` : '';
}
// The place of the first tick with a loop error, a limit or a syntax error; otherwise of the first one in which something is reported.
function first() {
  const bad = data.steps.findIndex(step => { const { errors, limits, faults } = trace.counts(step); return errors + limits + faults > 0; });
  const told = data.steps.findIndex(step => step.kind === 'tick' && trace.linesOf(step).length > 1);
  const places = [bad, told, data.steps.findIndex(step => step.kind === 'tick'), 0];
  return places.find(place => place >= 0);
}

// ---- moves ----

const say = sentence => { at('summary').textContent = sentence; };
const toPlace = place => choose({ place: within(place, data.steps.length), line: -1 });
function toTrouble(by) {
  let place = chosen.place + by;
  while (data.steps[place] && !trace.isTrouble(data.steps[place])) place += by;
  if (data.steps[place]) toPlace(place);
  else say(`No ${by > 0 ? 'later' : 'earlier'} tick has a loop error, an exception or a limit.`);
}
function toTick(text) {
  const place = data.steps.findIndex(one => one.kind === 'tick' && one.number === Number(text)), ticks = data.steps.filter(one => one.kind === 'tick');
  if (place >= 0) toPlace(place);
  else if (!ticks.length) say('There are no ticks.');
  else say(`There is no tick ${text} here; the page has ticks ${number(ticks[0].number)} to ${number(ticks[ticks.length - 1].number)}.`);
}
function toLine(line) {
  const elements = trace.elements(line), place = panels.placeOf.get(line), item = data.steps[place].log.findIndex(one => one[0] === 'line' && one[1] === line);
  choose({ place, line, at: item < 0 ? null : item, element: elements.length ? elements[0] : chosen.element });
  AFTER_SHOWN(() => {
    const row = at('story').querySelector(`[data-line="${line}"]`);
    if (row) row.scrollIntoView({ block: 'nearest' });
  });
}
// Draws the page at a place in the log of the tick.
const toMoment = moment => choose({ at: moment, line: -1 });
// The next or previous moment of the tick at which a box is different.
function stepMoment(by) {
  const places = (data.steps[chosen.place].moments || []).map(one => one[0]), now = chosen.at === null ? Infinity : chosen.at;
  const found = by > 0 ? places.find(one => one > now) : places.slice().reverse().find(one => one < now && (chosen.at !== null || one !== places[places.length - 1]));
  if (found !== undefined) toMoment(found);
  else if (by < 0) toMoment(-1);
  else choose({ at: null });
}
function toOther(text) {
  const wanted = text.toLowerCase(), place = wanted === 'start' ? 0 : data.steps.findIndex(one => one.kind === 'tick' && one.number === Number(text));
  if (text && place < 0) say(`There is no tick ${text} here to compare with.`);
  else choose({ other: text ? place : -1 });
}
// The next of a list, or its first or last if none of it is chosen.
function nextOf(list, now, by) {
  const here = list.indexOf(now);
  return here < 0 ? list[by > 0 ? 0 : list.length - 1] : list[within(here + by, list.length)];
}
function stepLine(by) {
  const lines = trace.linesOf(data.steps[chosen.place]).filter(line => trace.kind(line) !== 'tick');
  if (lines.length) toLine(nextOf(lines, chosen.line, by));
}
function stepBox(by, part) {
  const all = chosen.boxes ? chosen.boxes.order.map(row => row.element).filter(element => element !== undefined) : [];
  if (all.length) toBox(nextOf(all, chosen.element, by), part);
}
// `part` is the id of the part of the page in which the box gets the focus, if any.
function toBox(element, part) {
  choose({ element, line: -1, at: trace.meeting(chosen.line) ? null : chosen.at });
  if (part) {
    AFTER_SHOWN(() => {
      const box = at(part).querySelector(`[data-element="${element}"]`);
      if (box) box.focus({ preventScroll: part === 'stage' });
    });
  }
}
function toChange(by) {
  const places = chosen.element < 0 ? [] : panels.placesOf(chosen.element);
  const place = by > 0 ? places.find(one => one > chosen.place) : places.reverse().find(one => one < chosen.place);
  if (place !== undefined) toPlace(place);
}
function toScript(line) {
  chosen.script = line;
  at('script-part').open = true;
  if (scriptOf !== chosen.place) showScript();
  for (const old of at('script').querySelectorAll('.chosen')) old.classList.remove('chosen');
  const row = at('script-' + line);
  if (row) row.classList.add('chosen');
  (row || at('script-part')).scrollIntoView({ block: 'center' });
}
// The line of the script that the choice is about.
function scriptLine() {
  const causes = chosen.line < 0 ? [] : trace.causes(chosen.line);
  if (causes.length) return causes[causes.length - 1][0];
  return chosen.script || (chosen.element >= 0 ? data.elements[chosen.element][2] : data.steps[chosen.place].line || 1);
}
function toView(view) {
  drawing.view = view;
  zoom(0);
}
function nextView() {
  const views = chosen.element < 0 ? VIEWS.slice(0, 2) : VIEWS;
  toView(views[(views.indexOf(drawing.view) + 1) % views.length]);
}
function zoom(by) {
  drawing.zoom = by ? Math.max(0.25, Math.min(64, drawing.zoom * 1.5 ** by)) : 1;
  choose({});
}
function toPoint(svg, event) {
  const r = svg.getBoundingClientRect();
  toPlace(Math.floor((event.clientX - r.left) / r.width * data.steps.length));
}
function showAll(key) {
  if (key) panels.whole.add(key);
  else story.all = true;
  choose({ again: true });
}
function toFind() {
  at('all-boxes').open = true;
  showTree();
  at('find').focus();
}

// ---- clicks ----

const CLICKS = [
  ['[data-script]', node => toScript(Number(node.dataset.script))],
  ['[data-to-line]', node => toLine(Number(node.dataset.toLine))],
  ['[data-step]', node => toPlace(Number(node.dataset.step))],
  ['[data-view]', node => toView(node.dataset.view)],
  ['[data-zoom]', node => zoom(Number(node.dataset.zoom))],
  ['[data-side]', node => choose({ side: node.dataset.side })],
  ['[data-all]', () => showAll('')],
  ['[data-more]', node => showAll(node.dataset.more)],
  ['#drawing', (node, event) => toBox(drawing.picked(drawing.pointAt(event), chosen.element), '')],
  ['[data-element]', node => toBox(Number(node.dataset.element), '')],
  ['summary', () => {}],
  ['[data-moment]', node => toMoment(Number(node.dataset.moment))],
  ['#as-it-ends', () => choose({ at: null, line: -1 })],
  ['[data-line]', node => toLine(Number(node.dataset.line))],
  ['#previous', () => toPlace(chosen.place - 1)],
  ['#next', () => toPlace(chosen.place + 1)],
  ['#trouble', () => toTrouble(1)],
  ['#help-button, #more-button', () => at('help').showModal()],
];
document.addEventListener('click', event => {
  if (!getSelection().isCollapsed) return;
  const found = CLICKS.find(([selector]) => event.target.closest(selector));
  if (found) found[1](event.target.closest(found[0]), event);
});
at('number').addEventListener('change', event => toTick(event.target.value.trim()));
at('other').addEventListener('change', event => toOther(event.target.value.trim()));
// The overview is dragged: each place under the pointer is a tick.
at('overview').addEventListener('pointerdown', event => {
  const svg = event.target.closest('svg');
  if (!svg || event.button) return;
  event.preventDefault();
  svg.setPointerCapture(event.pointerId);
  toPoint(svg, event);
});
at('overview').addEventListener('pointermove', event => {
  const svg = event.target.closest('svg');
  if (svg && svg.hasPointerCapture(event.pointerId)) toPoint(svg, event);
});
at('find').addEventListener('input', showTree);
at('all-boxes').addEventListener('toggle', () => at('all-boxes').open && showTree());
at('script-part').addEventListener('toggle', () => at('script-part').open && scriptOf !== chosen.place && showScript());
addEventListener('hashchange', () => fromAddress(null));
addEventListener('resize', () => choose({}));
addEventListener('beforeprint', () => { story.all = chosen.again = true; show(); });

// What is under the pointer, by the rule of `--hit`.
let pointed = null, asking = 0;
at('stage').addEventListener('pointermove', event => {
  pointed = event;
  asking = asking || requestAnimationFrame(showPointer);
});
function showPointer() {
  asking = 0;
  if (!chosen.boxes) return;
  const [x, y] = drawing.pointAt(pointed), hits = chosen.boxes.hits(x, y).map(element => trace.name(element));
  at('pointer').textContent = `${Math.round(x / UNITS)} ${Math.round(y / UNITS)}: ${hits.length ? hits.slice(0, 8).join(', ') : 'nothing'}`;
}

// ---- keys ----

const KEYS = {
  ArrowLeft: () => toPlace(chosen.place - 1), ArrowRight: () => toPlace(chosen.place + 1), Home: () => toPlace(0), End: () => toPlace(Infinity),
  n: () => toTrouble(1), p: () => toTrouble(-1), j: () => stepLine(1), k: () => stepLine(-1), b: () => stepBox(1), B: () => stepBox(-1),
  c: () => toChange(1), C: () => toChange(-1), v: nextView, '+': () => zoom(1), '=': () => zoom(1), '-': () => zoom(-1), 0: () => zoom(0),
  t: () => at('number').select(), f: toFind, s: () => toScript(scriptLine()), '?': () => at('help').showModal(),
  m: () => stepMoment(1), M: () => stepMoment(-1), Escape: () => choose({ element: -1, line: -1, at: null, other: -1 }),
};
// Single keys can be turned off; the browser remembers it if it can.
const single = at('single');
try { single.checked = localStorage.getItem('single-keys') !== 'off'; } catch (e) { /* a page from a file may have no storage */ }
single.addEventListener('change', () => {
  try { localStorage.setItem('single-keys', single.checked ? 'on' : 'off'); } catch (e) { /* it is off for this page alone */ }
});
// Whether a key scrolls what has the focus.
function scrolls(event) {
  const active = document.activeElement, isAcross = ['ArrowLeft', 'ArrowRight'].includes(event.key);
  if (!active || active === document.body || !(isAcross || ['Home', 'End'].includes(event.key))) return false;
  const style = getComputedStyle(active), over = isAcross ? style.overflowX : style.overflowY;
  return ['auto', 'scroll'].includes(over) && (isAcross ? active.scrollWidth > active.clientWidth : active.scrollHeight > active.clientHeight);
}
// Keys that mean something else in the drawing and in the tree; returns whether this was one.
function inPart(event) {
  const active = document.activeElement, part = ['stage', 'tree'].find(id => at(id).contains(active)), by = { ArrowDown: 1, ArrowUp: -1 }[event.key];
  if (part && by) stepBox(by, part);
  else if (active && active.matches('g.box') && (event.key === 'Enter' || event.key === ' ')) toBox(Number(active.dataset.element), 'stage');
  else return false;
  return true;
}
document.addEventListener('keydown', event => {
  if (event.ctrlKey || event.metaKey || event.altKey || at('help').open) return;
  if (event.target.matches('input')) {
    if (event.key === 'Escape') event.target.blur();
    return;
  }
  if (scrolls(event) || !single.checked && event.key.length === 1 && event.key !== ' ') return;
  const act = KEYS[event.key];
  if (!inPart(event)) {
    if (!act) return;
    act();
  }
  event.preventDefault();
});

begin();
