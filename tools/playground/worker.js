'use strict';
// The worker: runs the program, and the translated explanations over what it wrote. A run has three messages: the trace, the picture, and
// what is said about it, which a newer run makes needless. The page ends a worker that takes too long and starts another.

const MOST_SHOWN_BYTES = 2000000;      // of a trace, in the page
const ran = { bytes: null, array: null, answers: new Map() };
const send = (message, moved = []) => postMessage(message, moved);

function answer(words, bytes) {
  if (ran.bytes !== bytes.text) Object.assign(ran, { bytes: bytes.text, array: null, answers: new Map() });
  const key = words.join(' ');
  if (!ran.answers.has(key)) ran.answers.set(key, machine.program.run(words, ran.array ||= bytes.array()));
  const { status, bytes: written } = ran.answers.get(key);
  return { status, written };
}
machine.run = (words, bytes) => {
  const { status, written } = answer(words, bytes);
  return { status, bytes: Bytes.of(written) };
};

// The reference's own run, where there is no program.
function answerOfReference(words, bytes) {
  const [lines, status] = take('reference.program').$answer(words, () => bytes);
  return { status, written: new TextEncoder().encode(lines.map(line => line + '\n').join('')) };
}
const asked = (words, bytes) => machine.isBuilt ? answer(words, bytes) : answerOfReference(words, bytes);
const textOfWritten = written => Bytes.of(written).text;

let begun = null;                      // the run about which there is more to say
const after = new MessageChannel();    // a run that came meanwhile is before its messages
after.port1.onmessage = () => doing('run', begun && begun.id, finish);

function run({ id, bytes, name }) {
  begun = null;
  const script = Bytes.of(bytes), began = performance.now(), { status, written } = asked([], script), took = performance.now() - began;
  const whole = written.slice(), beginning = textOfWritten(written.subarray(0, MOST_SHOWN_BYTES));
  send({ kind: 'trace', id, status, took, text: beginning, size: written.length, whole }, [whole.buffer]);
  const { found, recorded } = readingOnce(script, () => picture(script, name));
  send({ kind: 'picture', id, data: inJson(found) });
  begun = { id, script, name, status, recorded };
  after.port2.postMessage(null);
}
// Acts with these parts of translated modules in place of their own.
function replacing(replaced, act) {
  const own = replaced.map(([module, parts]) => [module, Object.fromEntries(Object.keys(parts).map(name => [name, module[name]]))]);
  for (const [module, parts] of replaced) Object.assign(module, parts);
  try {
    return act();
  } finally {
    for (const [module, parts] of own) Object.assign(module, parts);
  }
}
// A script is read once for its picture and for what is said about it.
function readingOnce(script, act) {
  const grammar = take('reference.grammar'), { $parse } = grammar, { $LANGUAGE } = take('reference.available');
  const parse = (text, language) => {
    if (text !== script || language !== $LANGUAGE) return $parse(text, language);
    if (read.text !== text) Object.assign(read, { parsed: $parse(text, language), text });
    return read.parsed;
  };
  return replacing([[grammar, { $parse: parse }]], act);
}
const read = { text: null, parsed: null };
// The viewer's data without the explanations and the check of the boxes, and the recording for them.
function picture(script, name) {
  const recording = take('view.recording');
  let recorded = null;
  class Recording extends recording.$Recording { $record() { recorded = this; return super.$record(); } }
  const found = replacing([[take('explain.report'), { $explained: take('playground.asked').$unexplained }], [recording, { $Recording: Recording }],
    [take('reference.available'), { $WORDS: [] }]], () => take('view.data').$of(script, name)[0]);
  return { found, recorded };
}
// The whole data, over a recording that was made already.
function dataOver(script, name, recorded) {
  const made = recorded ? { $Recording: class { $record() { return recorded; } } } : {};
  return replacing([[take('view.recording'), made]], () => take('view.data').$of(script, name)[0]);
}
// What is said about a run whose picture is shown: [place, explanation] of its lines, notes and verdicts.
function finish() {
  if (begun === null) return;
  const { id, script, name, status, recorded } = begun;
  begun = null;
  const found = readingOnce(script, () => dataOver(script, name, recorded)), explanations = [];
  item(found, 'lines').forEach((row, place) => { if (row.length > 5) explanations.push([place, inJson(row[5])]); });
  const lint = status === 1 ? '' : textOfWritten(asked(['--lint'], script).written);
  send({ kind: 'said', id, explanations, notes: inJson(item(found, 'notes')), checked: inJson(item(found, 'checked')), lint,
    blamed: /^un/m.test(lint) ? readingOnce(script, () => blamed(script)) : [] });
}
// All lines that stand in the way of a verdict; the program names the first.
function blamed(script) {
  const found = take('playground.asked').$blamed(script);
  return found === null ? [] : [...new Set(inJson(found).flatMap(([, lines]) => lines))];
}
const KINDS = {
  begin({ module, unproved }) {
    machine.isBuilt = Boolean(module);
    machine.program = module && new Program(module);
    send({ kind: 'ready', unproved });
  },
  run: given => run(given),
  complete({ id, bytes, line, column }) {
    send({ kind: 'completions', id, found: inJson(take('playground.asked').$completions(Bytes.of(bytes), line, column)) });
  },
  answer({ id, bytes, words }) {
    const { status, written } = asked(words, Bytes.of(bytes));
    send({ kind: 'answer', id, status, text: textOfWritten(written) });
  },
  data({ id, bytes, name }) {
    send({ kind: 'data', id, data: inJson(take('view.data').$of(Bytes.of(bytes), name)[0]) });
  },
  plan({ id, bytes }) {
    send({ kind: 'plan', id, plan: inJson(take('playground.asked').$plan(Bytes.of(bytes))) });
  },
  classes({ id, bytes, engine, told }) {
    send({ kind: 'classes', id, names: inJson(take('playground.asked').$classes(Bytes.of(bytes), engine, told)) });
  },
};
function doing(kind, id, act) {
  try {
    act();
  } catch (fault) {
    const thrown = fault instanceof Exception ? reprOf(fault) : String(fault && fault.message || fault);
    send({ kind: 'failed', id, of: kind, sentence: thrown });
  }
}
onmessage = event => doing(event.data.kind, event.data.id, () => KINDS[event.data.kind](event.data));
