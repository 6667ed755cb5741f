'use strict';
// In the frame of 'What happens', after the viewer's own program: shows another run, and keeps the tick, the box and the view that are
// chosen. `host` is what the page around it offers: toScript(line).

const host = { toScript: () => {}, answer: null };
const PATIENCE = 400;                  // milliseconds that the story waits for the explanations of a run
let unsaid = 0;                        // a timer, until they are there
const sameStep = (one, other) => one.kind === other.kind && one.number === other.number;
function showRun(found, isOther) {
  const old = { step: data.steps[chosen.place], name: chosen.element < 0 ? '' : trace.name(chosen.element), top: scrollY };
  for (const key of Object.keys(data)) delete data[key];
  Object.assign(data, found);
  Object.assign(states, new States(data));
  Object.assign(panels, new Panels(trace, sentences));
  Object.assign(story, new Story(trace, sentences));
  Object.assign(chosen, { place: 0, element: -1, line: -1, script: 0, again: true });
  drawn = { place: -1 };
  scriptOf = -1;
  fill('overview', '');
  clearTimeout(unsaid);
  unsaid = isOther ? 0 : setTimeout(said, PATIENCE);
  begin();
  at('source').textContent = '';
  if (isOther) scrollTo(0, 0);
  else {
    const same = data.steps.findIndex(step => old.step && sameStep(step, old.step)), last = data.steps.length - 1;
    const place = same >= 0 ? same : old.step && old.step.kind === 'tick' ? Math.min(last, Math.max(0, old.step.number)) : chosen.place;
    choose({ place, element: old.name ? data.elements.findIndex(one => one[0] === old.name) : -1 });
  }
  cancelAnimationFrame(asked);
  show();
  if (!isOther) scrollTo(0, old.top);
}

// The explanations of the run are there: its story is drawn with them.
function said() {
  clearTimeout(unsaid);
  unsaid = 0;
  showStepOfViewer(data.steps[chosen.place], chosen.place);
  markMoment();
}
function explain(found) {
  data.notes = found.notes;
  data.checked = found.checked;
  fill('notes', notes());
  at('notes').hidden = !at('notes').textContent;
  said();
}

// ---- drawing only what differs ----

let kept = { svg: null };              // what is drawn, as texts
function newNodes(texts) {
  const holder = document.createElementNS('http://www.w3.org/2000/svg', 'svg');
  holder.innerHTML = texts.join('');
  return [...holder.children];
}
drawing.put = function () {
  const found = this.boxes.order.map(row => row.element).filter(element => this.boxes.boxes.has(element)), svg = this.place.firstElementChild;
  const now = { svg, views: this.boxes.viewports.map(one => shown(this.viewport(one))), shapes: found.map(element => shown(this.shape(element))), ghosts: shown(html`${this.ghosts()}`) };
  if (!svg || svg !== kept.svg || now.views.length !== kept.views.length || now.shapes.length !== kept.shapes.length) {
    this.place.innerHTML = shown(this.svg());
    kept = { ...now, svg: this.place.firstElementChild };
    return;
  }
  svg.setAttribute('viewBox', this.frameNow.map(round).join(' '));
  svg.setAttribute('height', Math.round(this.height));
  const nodes = svg.children, before = [...kept.views, ...kept.shapes], all = [...now.views, ...now.shapes];
  const places = all.map((text, place) => place).filter(place => all[place] !== before[place]), made = newNodes(places.map(place => all[place]));
  places.map(place => nodes[place]).forEach((node, place) => node.replaceWith(made[place]));
  if (now.ghosts !== kept.ghosts) nodes[all.length].innerHTML = now.ghosts;
  kept = now;
};

// ---- the program's own answers for a tick ----

const TO_HIT = 'Click a point of the drawing to ask the program what it hits.';
const MOST_ANSWER = 100000;            // letters of `--inspect` that are shown
const answers = document.createElement('section');
answers.innerHTML = '<p id="hit-said" role="status"></p><details id="inspect"><summary>Each box, as <code>--inspect</code> says it</summary><pre id="inspected" tabindex="0" aria-label="boxes"></pre></details>';
at('pointer').after(answers);
const tickNow = () => data.steps[chosen.place].kind === 'tick' ? data.steps[chosen.place].number : 0;
const inWords = units => `${Math.round(units / UNITS * 100) / 100}px`;
async function hitAt(event) {
  const [x, y] = drawing.pointAt(event), words = ['--hit', String(tickNow()), inWords(x), inWords(y)];
  if (!host.answer || !tickNow() || !event.target.closest('#drawing')) return;
  const text = await host.answer(words);
  if (text !== null) at('hit-said').textContent = `${words.join(' ')}: ${text.trim().split('\n').join(', ') || 'miss'}`;
}
async function inspect() {
  if (!at('inspect').open || !host.answer) return;
  const text = tickNow() ? await host.answer(['--inspect', String(tickNow())]) : null;
  at('inspected').textContent = text === null ? 'Choose a tick.' : text.length > MOST_ANSWER ? text.slice(0, MOST_ANSWER) + ' ...' : text;
}
at('stage').addEventListener('click', hitAt);
at('inspect').addEventListener('toggle', inspect);
const showStepOfViewer = showStep;
// The story of a new run waits for its explanations, so that it isn't drawn twice.
showStep = (step, place) => {
  if (!unsaid || isRefused()) showStepOfViewer(step, place);
  const said = host.answer && tickNow() ? TO_HIT : '';
  if (at('hit-said').textContent !== said) at('hit-said').textContent = said;
  at('troubles').hidden = isRefused();           // which is said below once more
  inspect();
};

// The script is in the editor beside this frame.
toScript = line => host.toScript(line);
toAddress = () => {};
at('script-part').hidden = true;
document.documentElement.classList.add('framed');
function chooseLine(line) {
  if (line < data.lines.length && panels.placeOf.has(line)) toLine(line);
}
function chooseTick(number) { toTick(String(number)); }
document.title = 'What happens in the run';
window.playground = { host, showRun, explain, chooseLine, chooseTick };
