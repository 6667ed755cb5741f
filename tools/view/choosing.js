'use strict';
// Gives to others: `choose`, `chosen` and `show`.
// The choice (a tick, a box and a line of the trace), and how the page shows it.

const data = JSON.parse(document.getElementById('data').textContent);
const at = id => document.getElementById(id);
const fill = (id, content) => { at(id).innerHTML = shown(content); };
const trace = new Trace(data), sentences = new Sentences(trace), story = new Story(trace, sentences);
const states = new States(data), engineStates = ofEngine(), panels = new Panels(trace, sentences), drawing = new Drawing(data, at('stage'));
// `boxes`, `before` and `changes` are those of the tick; `again` asks for everything to be drawn again.
// `at` is the place in the tick's log at which the page is drawn, or null for its end; `other` the step that is compared with, or -1.
// `side` says whose boxes are drawn, the engine's or the rules', if both are known; `beside` are those of the other side.
const chosen = { place: 0, element: -1, line: -1, script: 0, at: null, other: -1, boxes: null, before: null, changes: new Map(),
  side: 'engine', beside: null, again: false };
const within = (place, length) => Math.max(0, Math.min(length - 1, place));
let asked = 0, drawn = { place: -1 }, scriptOf = -1;
// With an engine's model: its boxes, or null if there are none or all of them are those of the rules.
function ofEngine() {
  const known = data.as && data.as.boxes;
  return known && known.length ? new States({ ...data, steps: known.map(boxes => ({ boxes })) }) : null;
}

const NO_BOX = html`<p class="after none">None. Click a box in the drawing, a name, or a line of the trace, or press <kbd>b</kbd>.</p>`;
const MEETING_SAID = 'Dash-dotted: the root rectangle with its margin. Dotted: what clips the target. Filled: what is left of it.';
const PAGE_TITLES = { tick: 'The page as the tick ends', start: 'The page as the tick begins', end: 'The page as the script ends' };

function choose(more) {
  if ('place' in more && more.place !== chosen.place && !('at' in more)) more = { ...more, at: null };
  Object.assign(chosen, more);
  if (!asked) asked = requestAnimationFrame(show);
}
function show() {
  asked = 0;
  const { place, element, line } = chosen, step = data.steps[place], isOther = drawn.place !== place, focusAgain = focused();
  const part = drawing.view === 'box' ? element : '', moment = momentNow(step);
  drawing.meeting = trace.meeting(line);
  const met = drawing.meeting ? line : '', side = sideNow(moment);
  const look = [place, drawing.view, drawing.zoom, at('stage').clientWidth, part, moment, chosen.other, met, side].join(' ');
  if (isOther) showTick(step, place);
  const isMoved = isOther || chosen.again || drawn.moment !== moment || drawn.other !== chosen.other || drawn.side !== side;
  if (isMoved) takeBoxes(place, moment, side);
  if (isOther || chosen.again) showStep(step, place);
  else if (drawn.line !== line) markLine(step, line);
  if (isMoved) showChanges(place);
  if (drawn.look === look && !chosen.again) drawing.choose(element);
  else drawing.draw(chosen.boxes, chosen.before, chosen.changes, element);
  fill('chosen', element < 0 ? NO_BOX : panels.chosen(element, place, chosen.boxes, sidesSaid(side)));
  at('chosen-title').textContent = element < 0 ? 'Chosen box' : trace.name(element);
  markTree(element);
  markViews(element);
  markSides(side);
  at('page-title').textContent = pageTitle(step, place, moment, side);
  at('as-it-ends').hidden = moment === null;
  at('draws').textContent = drawing.meeting && drawing.meeting.root ? MEETING_SAID : engineSaid(moment, side);
  markMoment();
  focusAgain();
  drawn = { place, line, look, moment, other: chosen.other, side };
  chosen.again = false;
  toAddress();
  document.documentElement.dataset.shown = `${place} ${element} ${line}`;
}
// Remembers what has the focus, and returns a function that restores it after that part has been drawn again.
function focused() {
  const active = document.activeElement, part = active && active.closest('#story, #stage, #changes, #chosen, #tree');
  if (!part) return () => {};
  const marks = [...active.attributes].filter(one => one.name.startsWith('data-')).map(one => `[${one.name}="${one.value}"]`).join('');
  const selector = active.tagName.toLowerCase() + marks, place = [...part.querySelectorAll(selector)].indexOf(active);
  return () => {
    if (active.isConnected) return;
    const found = part.querySelectorAll(selector);
    if (found.length) found[Math.min(place, found.length - 1)].focus({ preventScroll: true });
  };
}

// ---- a tick ----

function showTick(step, place) {
  story.all = false;
  panels.whole.clear();
  markTick(place);
  fill('tick-title', panels.stepTitle(step));
  at('summary').textContent = trace.summary(step);
  fill('troubles', story.troubles(step));
  at('number').value = step.kind === 'tick' ? step.number : '';
  if (isRefused()) showRefusal(step);
}
// The number of the moment that is drawn: that of the chosen line, round, command or entry; null for the end of the tick.
function momentNow(step) {
  const met = trace.meeting(chosen.line), moments = step.moments || [];
  if (step.kind !== 'tick' || !step.boxes) return null;
  if (met && !moments.length) return null;
  if (met) return met.moment;
  if (chosen.at === null) return null;
  const found = moments.filter(one => one[0] <= chosen.at).length - 1;
  return found === moments.length - 1 ? null : found;
}
// The boxes that are drawn, those that they are compared with, and those of the other side at the same time.
function takeBoxes(place, moment, side) {
  const own = side === 'engine' ? engineStates : states, beside = side === 'engine' ? states : engineStates;
  const boxes = moment === null ? own.at(place) : own.within(place, moment);
  const before = chosen.other >= 0 ? own.at(chosen.other) : place > 0 ? own.at(place - 1) : null;
  Object.assign(chosen, { boxes, before, changes: allChanges(before, boxes), beside: side && beside.at(place) });
  drawing.apart = side ? new Set(allChanges(chosen.beside, boxes).keys()) : new Set();
}

// ---- an engine's boxes ----

// Whose boxes are drawn: 'engine' or 'rules' if both are known, otherwise ''. Moments within a tick are known by the rules only.
function sideNow(moment) {
  if (!engineStates || moment !== null || !engineStates.at(chosen.place) || !states.at(chosen.place)) return '';
  return chosen.side;
}
// What is said below the drawing of whose boxes these are.
function engineSaid(moment, side) {
  if (!data.as) return '';
  const { name, boxes } = data.as;
  if (boxes && !boxes.length) return `At the end of each tick ${name}\u2019s boxes are the rules\u2019.`;
  if (!side) return moment === null ? `These are the boxes by the rules; ${name}\u2019s aren\u2019t known here.` : 'These are the boxes by the rules.';
  const apart = [...drawing.apart].map(element => trace.name(element)), some = apart.slice(0, 8).join(', ') + (apart.length > 8 ? ' \u2026' : '');
  const whose = side === 'engine' ? `These are the boxes in ${name}, by its model. ` : 'These are the boxes by the rules. ';
  return whose + (apart.length ? `${counted(apart.length, 'box', 'boxes')} differ${apart.length === 1 ? 's' : ''} from ${
    side === 'engine' ? 'the rules\u2019' : name + '\u2019s'}: ${some}.` : `${name} and the rules agree on all of them.`);
}
// What the panel of a chosen box says of both sides: how this side is called, and the other side's boxes.
function sidesSaid(side) {
  if (!data.as || data.as.boxes && !data.as.boxes.length) return null;
  const engine = 'in ' + data.as.name, rules = 'by the rules';
  return side === 'engine' ? { own: engine, other: rules, boxes: chosen.beside } : { own: rules, other: engine, boxes: side ? chosen.beside : null };
}
function markSides(side) {
  at('sides').hidden = !engineStates;
  for (const button of document.querySelectorAll('[data-side]')) {
    button.setAttribute('aria-pressed', button.dataset.side === (side || 'rules'));
    button.disabled = !side;
  }
}
function markMoment() {
  for (const old of at('story').querySelectorAll('.now')) old.classList.remove('now');
  const row = chosen.at === null || chosen.line >= 0 ? null : at('story').querySelector(`[data-moment="${chosen.at}"]`);
  if (row) row.classList.add('now');
}
function pageTitle(step, place, moment, side) {
  if (moment !== null) return drawing.meeting ? 'The page as the intersection was found' : 'The page at this moment of the tick';
  if (trace.counts(step).limits) return 'The page as the limit is met';
  if (data.stopped && place === data.steps.length - 1) return 'The page as the run is stopped';
  return side === 'engine' ? PAGE_TITLES[step.kind].replace('The page', `The page in ${data.as.name}`) : PAGE_TITLES[step.kind];
}
function markTick(place) {
  for (const button of at('ticks').querySelectorAll('[aria-current]')) {
    button.removeAttribute('aria-current');
    button.tabIndex = -1;
  }
  const button = at('ticks').children[place].firstElementChild, strip = at('ticks').parentElement, cursor = at('overview').querySelector('.cursor');
  button.setAttribute('aria-current', 'step');
  button.tabIndex = 0;
  if (at('ticks').contains(document.activeElement)) button.focus({ preventScroll: true });
  const left = button.offsetLeft - strip.clientWidth / 2 + button.offsetWidth / 2;
  strip.scrollTo({ left, behavior: Math.abs(drawn.place - place) === 1 ? 'auto' : 'instant' });
  if (cursor) cursor.setAttribute('x', place);
}
// Whether nothing ran because the text isn't a script or exceeds a limit on texts.
const isRefused = () => data.lines.length === 1 && !data.steps.some(step => step.boxes) && /^(syntax|limit) /.test(trace.text(0));
function showRefusal() {
  const words = trace.words(0);
  at('tick-title').textContent = words[0] === 'syntax' ? 'This isn\u2019t a script' : 'This text meets a limit';
  at('summary').textContent = 'Nothing was run.';
  chosen.script = Number(words[words[0] === 'syntax' ? 1 : 2]);
  at('script-part').open = true;
}
// The parts that depend only on the tick.
function showStep(step, place) {
  fill('story', story.told(step, chosen.line));
  at('pointer').textContent = '';
  if (at('script-part').open) showScript();
}
// The parts that depend on the boxes that are drawn.
function showChanges(place) {
  const since = place > 0 && data.steps[place - 1].kind === 'tick' ? 'Changed since the previous tick' : 'Changed since the tick began';
  const other = chosen.other < 0 ? null : panels.stepName(data.steps[chosen.other]);
  fill('changes', panels.changes(chosen.boxes, chosen.before, chosen.changes));
  at('changes-title').textContent = other ? `Compared with ${other}` : place === 0 ? 'Changes' : since;
  fill('box-count', chosen.boxes ? number(chosen.boxes.boxes.size) : '');
  if (at('all-boxes').open) showTree();
}
function showTree() { fill('tree', panels.tree(chosen.boxes, at('find').value.trim(), chosen.element, chosen.changes)); }
function showScript() {
  const step = data.steps[chosen.place], running = new Set([step.line]), list = at('script').firstElementChild, top = list ? list.scrollTop : 0;
  for (const item of [...step.since, ...step.log]) {
    if (item[0] === 'command') running.add(item[1]);
    if (item[0] === 'handler') running.add(item[2]);
  }
  if (step.kind !== 'start' && step.commands[2]) story.outside(step.commands[0], step.commands[1]).forEach(line => running.add(line));
  fill('script', panels.script(running, chosen.script));
  at('script').firstElementChild.scrollTop = top;
  scriptOf = chosen.place;
}

// ---- marking the choice ----

function markLine(step, line) {
  for (const old of at('story').querySelectorAll('[aria-current]')) {
    old.removeAttribute('aria-current');
    old.tabIndex = -1;
  }
  if (line < 0) return;
  const row = at('story').querySelector(`[data-line="${line}"]`);
  if (!row) {
    fill('story', story.told(step, line));
    return;
  }
  row.setAttribute('aria-current', true);
  row.tabIndex = 0;
}
function markTree(element) {
  for (const old of at('tree').querySelectorAll('[aria-current]')) old.removeAttribute('aria-current');
  const row = at('tree').querySelector(`[data-element="${element}"]`), list = row && row.closest('.tree');
  if (!row) return;
  row.setAttribute('aria-current', true);
  const top = row.offsetTop - list.offsetTop;
  if (top < list.scrollTop || top + row.offsetHeight > list.scrollTop + list.clientHeight) list.scrollTop = top - list.clientHeight / 2;
}
function markViews(element) {
  for (const button of document.querySelectorAll('[data-view]')) {
    button.setAttribute('aria-pressed', button.dataset.view === drawing.view);
    button.disabled = button.dataset.view === 'box' && element < 0;
  }
}

// ---- the page's address ----

const address = () => new URLSearchParams(location.hash.slice(1));
// Chooses what the address names, or else this tick; returns whether there is such a tick.
function fromAddress(wanted) {
  const words = address(), tick = Number(words.get('tick')) || wanted, last = data.steps.length - 1;
  const element = words.get('box') ? data.elements.findIndex(one => one[0] === words.get('box')) : -1;
  const found = data.steps.findIndex(step => step.kind === 'tick' && step.number === tick);
  const place = { start: 0, end: last }[words.get('at')] ?? (found < 0 && tick ? last : found);
  if (place < 0) return false;
  choose({ place, element });
  return true;
}
function toAddress() {
  const step = data.steps[chosen.place], words = [step.kind === 'tick' ? `tick=${step.number}` : `at=${step.kind}`];
  if (chosen.element >= 0) words.push('box=' + trace.name(chosen.element));
  try { history.replaceState(null, '', '#' + words.join('&')); } catch (e) { /* the page has no address of its own */ }
}
