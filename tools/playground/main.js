'use strict';
// The page: what is typed is run, kept and shown.

const MOST_KEPT = 4000000, LONG_RUN = 400, WAIT_TO_KEEP = 400, MOST_BYTES = 16777217;
const parts = JSON.parse(at('parts').textContent);
const utf8 = new TextEncoder();
let editor, runner, panes, lessons, beside;
const state = { name: '', isOther: true, raw: null, lines: [], whole: null, text: '', shared: '', trace: null, isCut: '', isTraced: false };

const say = sentence => { at('said').textContent = sentence; };
// The bytes of the text: those of a file that isn't UTF-8 are kept as letters of Latin-1.
const bytesOf = text => state.raw ? Uint8Array.from(text, letter => letter.charCodeAt(0) & 255) : utf8.encode(text);

// ---- running ----

function run(isOther = false) {
  state.isOther ||= isOther;
  state.text = editor.text;
  setTraced(false);
  runner.run(bytesOf(state.text), state.name);
}
// Whether the trace is that of the text, so that a run in the browser can be compared with it.
function setTraced(isTraced) {
  state.isTraced = isTraced;
  at('run-browser').disabled = !isTraced || beside.isBusy;
}
function edited() {
  run();
  clearTimeout(state.keeping);
  state.keeping = setTimeout(keep, WAIT_TO_KEEP);
  markUndo();
}
function markUndo() {
  const { undo, redo } = editor.history;
  at('undo').disabled = !undo;
  at('redo').disabled = !redo;
}
const TOLD = {
  begun() {
    clearTimeout(state.long);
    state.long = setTimeout(() => { at('state').textContent = 'Running \u2026'; at('stop').hidden = false; }, LONG_RUN);
  },
  trace(message) {
    const lines = message.text.split('\n'), isWhole = message.size <= message.text.length;
    lines.pop();
    state.whole = message.whole;
    Object.assign(state, { lines, trace: message });
    panes.showTrace(lines, { size: message.size, shown: message.text.length }, state.isOther, message.status === 1);
    document.documentElement.dataset.traced = message.id;
    lessons.check(isWhole ? lines : lines.slice(0, -1), state.text);
    setTraced(message.status !== 1 && editor.text === state.text);
  },
  picture(message) {
    const isFault = state.trace.status === 1;
    panes.showRun(message.data, state.isOther, isFault);
    state.isOther = false;
    const said = isFault && panes.hasPicture ? 'Not a script now; this is the run before.'
      : isFault ? 'Not a script.' : `${counted(message.data.lineCount, 'line')} of trace in ${tookSaid(state.trace.took)}`;
    if (at('state').textContent !== said) at('state').textContent = said;
  },
  said(message) {
    ended();
    panes.explain(message);
    state.trace.lint = message.lint;
    showVerdict(panes.data, message.blamed);
    document.documentElement.dataset.shown = message.id;
  },
  failed(message) {
    ended();
    at('state').textContent = '';
    state.verdict = '';
    fill('verdict', html`<p class="bad">The run failed: ${message.sentence}. This is a bug of the playground; the script is kept.</p>`);
    document.documentElement.dataset.shown = message.id;
  },
};
const tookSaid = milliseconds => milliseconds < 1 ? 'under 1 ms' : `${number(Math.round(milliseconds))} ms`;
function ended() {
  clearTimeout(state.long);
  at('stop').hidden = true;
}
function stop() {
  if (!runner.stop()) return;
  ended();
  at('state').textContent = 'Stopped.';
  state.verdict = '';
  fill('verdict', html`<p>The run was stopped. It begins again when the script is changed.</p>`);
  document.documentElement.dataset.stopped = 'yes';
  editor.focus();
}

// ---- the verdict ----

const toLine = (line, said) => html`<button type="button" class="to" data-line="${line}">${said || `line ${line}`}</button>`;
const toTick = (tick, said) => html`<button type="button" class="to" data-tick="${tick}">${said || `tick ${tick}`}</button>`;

// What a line `syntax` and its explanation say: the place and length of the mark, and the sentences.
function faultOf(data) {
  const row = data.lines[0], words = row ? row[0].split(' ') : [];
  if (words[0] !== 'syntax') return null;
  const explanation = row[5] || [], mark = explanation.find(line => /^ +\^/.test(line)) || '', [, sign, here] = mark.match(/^ +(\^~*) ?(.*)$/) || [0, '^', ''];
  const length = sign.length;
  const rest = explanation.slice(explanation.indexOf(mark) + 1);
  const about = rest.filter(line => !/^ /.test(line) && !/^Syntax/.test(line)), forms = rest.filter(line => /^ /.test(line)).map(line => line.trim());
  const sentence = [here && here[0].toUpperCase() + here.slice(1) + '.', ...about].filter(Boolean).join(' ');
  return { line: Number(words[1]), column: Number(words[2]), length, sentence: sentence || 'Not a script.', explanation, forms };
}
function showVerdict(data, blamed) {
  const fault = faultOf(data), items = [];
  if (fault) items.push(html`<span class="bad"><b>Not a script:</b></span> ${toLine(fault.line, `line ${fault.line}, column ${fault.column}`)}. ${quoted(fault.sentence)}${
    fault.forms.length > 0 && html`<pre>${fault.forms.join('\n')}</pre>`}`);
  else items.push(...troubles(data), ...lintSaid());
  for (const note of data.notes) items.push(quoted(note));
  const verdict = shown(html`<ul>${items.map(item => html`<li>${item}</li>`)}</ul>`);
  if (verdict !== state.verdict) at('verdict').innerHTML = state.verdict = verdict;
  editor.show({ fault, blamed: fault ? [] : blamed, trouble: fault ? new Map() : troubleLines(data) });
}
// Loop errors, exceptions and limits, the first of each with its place.
function troubles(data) {
  const kinds = [['event error', 'loop error', 'bad'], ['throw ', 'exception', 'odd'], ['limit ', 'limit', 'bad']], found = [];
  for (const [begin, one, kind] of kinds) {
    const rows = data.lines.map((row, place) => ({ row, place })).filter(({ row }) => row[0].startsWith(begin));
    if (!rows.length) continue;
    const { row, place } = rows[0], line = begin === 'throw ' ? Number(row[0].split(' ')[1]) : row[1], tick = tickOf(data, place);
    found.push(html`<b class="${kind}">${counted(rows.length, one)}</b>, the first ${tick > 0 ? html`in ${toTick(tick)}` : 'at the start'}${line > 0 && begin !== 'event error' && ', '}${
      line > 0 && begin !== 'event error' && toLine(line)}${begin === 'limit ' && html`: <code>${row[0]}</code>`}${begin === 'throw ' && html`: ${row[0].split(' ')[2]}`}`);
  }
  if (!found.length) found.push(html`<b class="good">Runs</b> without a loop error, an exception or a limit.`);
  return found;
}
function tickOf(data, place) {
  let tick = 0;
  for (let line = 0; line <= place; line++) if (data.lines[line][0].startsWith('tick ')) tick++;
  return tick && tick + (data.steps.find(step => step.kind === 'tick') || { number: 1 }).number - 1;
}
function troubleLines(data) {
  const found = new Map();
  for (const [text, line] of data.lines) if (/^(throw|limit) /.test(text)) found.set(text.startsWith('throw') ? Number(text.split(' ')[1]) : line, `It wrote: ${text}`);
  return found;
}
function lintSaid() {
  const lines = state.trace.lint.trim().split('\n').map(line => line.split(' '));
  const last = lines[lines.length - 1];
  if (last[0] === 'quiet') return [html`Without a run, <code>--lint</code> says <b>quiet</b>: no run of these handlers ends a resize loop with the error.`];
  const found = [];
  for (const [verdict, line] of lines) {
    const verdictBefore = found.length > 0;
    if (verdict === 'unsteady') found.push(html`Without a run, <code>--lint</code> says <b>unsteady</b>, because of ${toLine(line)}: it moves elements in a resize observer\u2019s callback, so a loop may go on without getting deeper.`);
    if (verdict === 'unquiet') found.push(html`${verdictBefore ? 'And' : html`Without a run, <code>--lint</code> says`} <b>unquiet</b>, because of ${toLine(line)}: it can change a size in a resize observer\u2019s callback, so a loop may end with the error.`);
  }
  return found;
}
// ---- what is kept ----

async function keep() {
  const text = editor.text;
  if (state.fromElsewhere && text !== state.fromElsewhere) {
    const draft = kept.read('draft');
    if (draft !== null && draft !== text && draft !== state.fromElsewhere) kept.write('before', draft);
    state.fromElsewhere = '';
  }
  const isKept = text.length <= MOST_KEPT && (kept.write('draft', text), kept.read('draft') === text);
  if (!isKept && !state.warned) {
    state.warned = true;
    say('This page\u2019s storage is full or turned off: what you type isn\u2019t kept when the page is closed. Save it as a file.');
  }
  if (isKept && state.warned) { state.warned = false; say(''); }
  document.documentElement.dataset.kept = isKept ? 'yes' : 'no';
  const address = text.length <= MOST_KEPT ? await addressOf(text) : '';
  state.shared = address && address.length <= LONGEST_ADDRESS ? address : '';
  if (text !== editor.text) return;
  state.ownHash = state.shared ? '#' + state.shared : '';
  try { history.replaceState(null, '', state.ownHash || location.pathname + location.search); } catch (fault) { /* this page's address can't be changed */ }
  document.documentElement.dataset.addressed = state.shared.length;
}
async function share() {
  await keep();
  const address = state.shared && location.href.split('#')[0] + '#' + state.shared;
  at('address').hidden = !address;
  document.querySelector('label[for="address"]').hidden = !address;
  at('copy').hidden = !address;
  at('share-said').textContent = !address ? 'This script is too long for an address. Save it as a file, and share that.'
    : location.protocol === 'file:' ? 'The address has the script in it. It opens where the same file is at the same place; put the page on a web server to share it with others.'
      : 'The address has the script in it; no server keeps it.';
  at('address').value = address;
  at('share-dialog').showModal();
  if (address) at('address').select();
}
async function copy() {
  at('address').select();
  try { await navigator.clipboard.writeText(at('address').value); } catch (fault) { document.execCommand('copy'); }
  at('share-said').textContent = 'Copied.';
}
function download(parts_, name) {
  const link = document.createElement('a');
  link.href = URL.createObjectURL(new Blob(parts_));
  link.download = name;
  link.click();
  setTimeout(() => URL.revokeObjectURL(link.href), 10000);
}

// ---- what is opened ----

function show(text, name, more = {}) {
  Object.assign(state, { name, isOther: true, raw: more.raw || null, fromElsewhere: more.isOwn ? '' : text });
  editor.text = text;
  at('menu').value = more.menu || '';
  if (!('lesson' in more)) lessons.close();
  run(true);
  markUndo();
}
function openLesson(place) {
  lessons.open(place);
  show(lessons.lesson.script, lessons.lesson.title, { lesson: place, menu: `lesson ${place}` });
}
function choose(value) {
  at('welcome').hidden = true;
  const [kind, place] = value.split(' ');
  say('');
  if (kind === 'lesson') openLesson(Number(place));
  if (kind === 'example') show(parts.examples[Number(place)].text, parts.examples[Number(place)].name, { menu: value });
  if (kind === 'own') show(kept.read(place) || '', 'your script', { isOwn: true, menu: value });
  document.documentElement.dataset.opened = value;
}
function fillMenu() {
  const own = [['draft', 'What you typed last'], ['before', 'What you typed before that']].filter(([name]) => kept.read(name));
  fill('menu', html`<option value="">a lesson or an example</option><optgroup label="Lessons">${
    lessons.all.map((lesson, place) => html`<option value="lesson ${place}">${place + 1}. ${lesson.title}${lessons.done.has(lesson.name) && ' \u2713'}</option>`)}</optgroup>
    <optgroup label="Examples">${parts.examples.map((one, place) => html`<option value="example ${place}">${one.title}</option>`)}</optgroup>${
    own.length > 0 && html`<optgroup label="Yours">${own.map(([name, said]) => html`<option value="own ${name}">${said}</option>`)}</optgroup>`}`);
}
async function openFile(file) {
  const bytes = new Uint8Array(await file.slice(0, MOST_BYTES).arrayBuffer());
  let text, raw = null;
  try { text = new TextDecoder('utf-8', { fatal: true, ignoreBOM: true }).decode(bytes); } catch (fault) {
    raw = true;
    text = Array.from({ length: Math.ceil(bytes.length / 32768) }, (_, part) => String.fromCharCode.apply(null, bytes.subarray(part * 32768, (part + 1) * 32768))).join('');
  }
  say(raw ? `${file.name} isn\u2019t UTF-8; its bytes are shown as letters of Latin-1, and are run as they are.`
    : file.size > MOST_BYTES - 1 ? `${file.name} is longer than a script may be; its first ${number(MOST_BYTES)} bytes are shown.` : '');
  show(text, file.name, { raw });
}
// What the address holds, else what was kept, else the first example.
async function openFirst() {
  const found = location.hash.length > 1 ? await textOfAddress(location.hash.slice(1)).catch(() => ({ text: '', cut: true })) : null;
  if (found && (found.text || !found.cut)) {
    if (found.cut) say('This address was cut or changed: only what could be read of the script is shown.');
    return show(found.text, 'shared script');
  }
  if (found) say('This address holds no script that can be read: it was cut or changed.');
  const draft = kept.read('draft');
  if (draft !== null && draft.trim()) return show(draft, 'your script', { isOwn: true });
  const first = parts.examples.findIndex(one => one.name === parts.first);
  show(parts.examples[first].text, parts.examples[first].name, { menu: `example ${first}` });
  at('welcome').hidden = false;
}

// ---- at first ----

async function unpacked(base64) {
  const { whole, failed } = await through(fromBase64(base64), new DecompressionStream('deflate-raw'));
  if (failed) throw new Error('a part of this page can\u2019t be read');
  return whole;
}
function addScript(text) {
  const script = document.createElement('script');
  script.textContent = text;
  document.head.append(script);
}
// The module, compiled, or null with a sentence that says why this engine doesn't run it.
async function compiled() {
  if (!parts.module) return { module: null, why: 'This page was written without the proved program.' };
  if (typeof WebAssembly !== 'object') return { module: null, why: 'This browser has no WebAssembly.' };
  try {
    return { module: await WebAssembly.compile(await unpacked(parts.module.code)), why: '' };
  } catch (fault) {
    return { module: null, why: 'This browser\u2019s WebAssembly has no 64-bit memories, which the proved program needs.' };
  }
}
function showOrigin(module, why) {
  const unproved = module && parts.module.unproved;
  fill('origin', !module ? html`<span class="odd">${why} Traces are those of the reference program; all else works.</span>`
    : unproved ? html`<span class="odd">Traces: an <b>unproved</b> build of the program.</span>`
      : 'Traces: the proved program\u2019s. Boxes and causes: the reference program\u2019s.');
  fill('help-origin', html`${!module ? why : unproved ? `The program in this page is unproved: ${unproved}. ` : 'The trace is written by the proved program, compiled to WebAssembly: the text is proved; the toolchain that compiles it and its memory are trusted.'} ${
    ''}Boxes, causes and explanations come from the reference program, a second implementation of the rules whose trace must be the same, byte for byte; a note says so if it isn\u2019t.`);
  document.documentElement.dataset.program = !module ? 'reference' : unproved ? 'unproved' : 'proved';
}
const heard = message => TOLD[message.kind] && TOLD[message.kind](message);
async function ask(text, line, column) {
  const answer = await runner.ask('complete', { bytes: bytesOf(text), line, column });
  return answer && answer.found;
}
function connect() {
  at('begin').addEventListener('click', () => { openLesson(0); at('welcome').hidden = true; at('script-title').focus(); });
  at('menu').addEventListener('change', event => choose(event.target.value));
  at('menu').addEventListener('focus', () => { const value = at('menu').value; fillMenu(); at('menu').value = value; });
  at('open').addEventListener('click', () => at('file').click());
  at('file').addEventListener('change', event => event.target.files[0] && openFile(event.target.files[0]).finally(() => { event.target.value = ''; }));
  at('save').addEventListener('click', () => download([bytesOf(editor.text)], (state.name.replace(/[^A-Za-z0-9._-]+/g, '-').replace(/\.script$/, '') || 'page') + '.script'));
  at('share').addEventListener('click', share);
  at('copy').addEventListener('click', copy);
  at('undo').addEventListener('click', () => { editor.undo(); markUndo(); });
  at('redo').addEventListener('click', () => { editor.redo(); markUndo(); });
  at('stop').addEventListener('click', stop);
  at('help-button').addEventListener('click', () => at('help').showModal());
  at('save-trace').addEventListener('click', () => download([state.whole], 'page.trace'));
  at('run-browser').addEventListener('click', () => beside.run(bytesOf(state.text), state.lines));
  at('verdict').addEventListener('click', pointed);
  at('trace').addEventListener('click', event => {
    const row = event.target.closest('[data-number]'), place = row && Number(row.dataset.number);
    if (place) toTraceLine(place);
  });
  at('lesson').addEventListener('click', event => taught(event.target.closest('[data-lesson]')));
  addEventListener('hashchange', () => { if (location.hash !== state.ownHash) openFirst(); });
  addEventListener('beforeprint', () => { at('printed').textContent = editor.text; panes.isPrinting = true; panes.fit(); });
  addEventListener('afterprint', () => { panes.isPrinting = false; panes.fit(); });
  addEventListener('dragover', event => event.preventDefault());
  addEventListener('drop', event => { event.preventDefault(); if (event.dataTransfer.files[0]) openFile(event.dataTransfer.files[0]); });
}
function pointed(event) {
  const to = event.target.closest('[data-line], [data-tick]');
  if (!to) return;
  if (to.dataset.line) editor.goTo(Number(to.dataset.line));
  else { panes.choose('view'); panes.calls.chooseTick(Number(to.dataset.tick)); }
}
function toTraceLine(place) {
  const line = panes.lineOf(place);
  if (line) editor.goTo(line);
  if (panes.calls && panes.data) panes.calls.chooseLine(place - 1 - (panes.data.firstLine || 0));
}
function taught(button) {
  if (!button) return;
  const act = { next: () => openLesson(lessons.place + 1), previous: () => openLesson(lessons.place - 1), again: () => openLesson(lessons.place),
    solve: () => editor.replace(lessons.lesson.solution), close: () => { lessons.close(); at('menu').value = ''; editor.focus(); } };
  act[button.dataset.lesson]();
  if (['next', 'previous', 'again'].includes(button.dataset.lesson)) at('script-title').focus();
  fillMenu();
  if (lessons.lesson) at('menu').value = `lesson ${lessons.place}`;
}
async function begin() {
  const [program, library, { module, why }] = await Promise.all([unpacked(parts.worker), parts.editor ? unpacked(parts.editor) : null, compiled()]);
  if (library) addScript(new TextDecoder().decode(library));
  showOrigin(module, why);
  runner = new Runner(new TextDecoder().decode(program), { module, unproved: parts.module && parts.module.unproved }, heard);
  editor = Editor.in(at('editor'), parts.words, ask);
  editor.changed = edited;
  lessons = new Lessons(parts.lessons, editor);
  panes = new Panes(parts.viewer, line => editor.goTo(line), async words => {
    const answer = await runner.ask('answer', { bytes: bytesOf(state.text), words });
    return answer && answer.text;
  });
  beside = new Beside((kind, more) => runner.ask(kind, more), parts.classes, () => setTraced(state.isTraced));
  panes.choose('view');
  fillMenu();
  connect();
  await openFirst();
  window.readyAt = performance.now();
  document.documentElement.dataset.ready = 'yes';
}
begin().catch(fault => say(`This page can\u2019t begin in this browser: ${fault.message || fault}.`));
