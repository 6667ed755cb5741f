'use strict';
// What the translated modules import from Python's library. The program is run by `subprocess.run`, as in tools/explain: in the page that
// is a call of the WebAssembly module, which `machine.run` makes; without one, `os.access` says that the program isn't built.

const machine = { isBuilt: false, run: null };
const __file__ = '/';

// ---- re ----

class Match {
  constructor(found, isBytes) { Object.assign(this, { found, isBytes }); }
  made(text) { return text === undefined ? null : this.isBytes ? new Bytes(text) : text; }
  $group(number = 0) { return this.made(this.found[number]); }
  $groups() { return this.found.slice(1).map(text => this.made(text)); }
  $start() { return this.found.index; }
  $end() { return this.found.index + this.found[0].length; }
}
class Pattern {
  constructor(form, flags = '') {
    this.flags = flags;
    this.isBytes = form instanceof Bytes;
    this.source = textOf(form).replace(/\\Z/g, '$').replace(/\(\?P</g, '(?<');
    this.here = new RegExp(this.source, 'y' + flags);
    this.anywhere = new RegExp(this.source, 'g' + flags);
    this.whole = null;
  }
  from(expression, text, at) {
    expression.lastIndex = at;
    const found = expression.exec(text);
    return found && new Match(found, this.isBytes);
  }
  $match(text, at = 0) { return this.from(this.here, textOf(text), at); }
  $fullmatch(text) { return this.from(this.whole ||= new RegExp(`(?:${this.source})$`, 'y' + this.flags), textOf(text), 0); }
  $search(text, at = 0, end = Infinity) { return this.from(this.anywhere, textOf(text).slice(0, end), at); }
  *$finditer(text) {
    const letters = textOf(text);
    for (let at = 0; at <= letters.length;) {
      const found = this.from(this.anywhere, letters, at);
      if (!found) return;
      at = Math.max(found.$end(), found.$start() + (found.found[0] ? 0 : 1));
      yield found;
    }
  }
  $findall(text) { return [...this.$finditer(text)].map(found => found.found.length > 1 ? found.$group(1) : found.$group()); }
  $sub(by, text) {
    const put = typeof by === 'function' ? (...given) => textOf(by(new Match(Object.assign(given.slice(0, -2), { index: given[given.length - 2] }), this.isBytes)))
      : textOf(by).replace(/\\(\d)/g, '$$$1');
    return like(text, textOf(text).replace(this.anywhere, put));
  }
  $split(text) { return textOf(text).split(this.anywhere).map(part => like(text, part)); }
}
const compiled = (form, flags) => form instanceof Pattern ? form : new Pattern(form, flags);
define('re', module => {
  Object.assign(module, { $M: 'm', $I: 'i', $S: 's', $compile: compiled, $escape: escaped, $match: (form, text) => compiled(form).$match(text),
    $fullmatch: (form, text) => compiled(form).$fullmatch(text), $search: (form, text) => compiled(form).$search(text),
    $finditer: (form, text) => compiled(form).$finditer(text), $findall: (form, text) => compiled(form).$findall(text),
    $sub: (form, by, text) => compiled(form).$sub(by, text), $split: (form, text) => compiled(form).$split(text) });
});

// ---- what surrounds a program ----

define('collections', module => {
  Object.assign(module, { $namedtuple: namedtuple, $deque: (values = []) => [...values], $Counter: (values = []) => {
    const found = new Count();
    for (const value of values) found.set(value, found.read(value) + 1);
    return found;
  } });
});
define('os', module => {
  const join = (...parts) => parts.join('/');
  const path = { $join: join, $dirname: text => text.slice(0, text.lastIndexOf('/')), $abspath: text => text, $basename: text => text.slice(text.lastIndexOf('/') + 1) };
  Object.assign(module, { $path: path, $access: () => machine.isBuilt, $X_OK: 1, $fsencode: text => text.$encode(), $environ: new Dict() });
});
define('sys', module => { Object.assign(module, { $setrecursionlimit: () => null, $argv: [], $path: [], $stdin: null, $stdout: null }); });
// A copy of a thing has the same parts; one of a container has the same values.
function copied_(value) {
  if (value instanceof Dict || value instanceof PySet) return value.$copy();
  if (Array.isArray(value)) return value.slice();
  return value instanceof Thing ? Object.assign(Object.create(Object.getPrototypeOf(value)), value) : value;
}
define('copy', module => { module.$copy = copied_; });
define('functools', module => { module.$lru_cache = lru_cache; });
define('itertools', module => {
  module.$permutations = function* (values) {
    const all = [...values];
    if (!all.length) yield [];
    for (let at = 0; at < all.length; at++) for (const rest of module.$permutations([...all.slice(0, at), ...all.slice(at + 1)])) yield [all[at], ...rest];
  };
});
define('contextlib', module => { module.$contextmanager = contextmanager; });
define('signal', module => { Object.assign(module, { $signal: () => null, $setitimer: () => null, $SIGPROF: 0, $ITIMER_PROF: 0 }); });
define('time', module => {
  const now = () => performance.now() / 1000;
  Object.assign(module, { $process_time: now, $monotonic: now, $time: now });
});
class WrittenFile {
  constructor() { this.bytes = new Bytes(''); }
  $__enter__() { return this; }
  $__exit__() {}
  $seek() { return null; }
  $read() { return this.bytes; }
}
define('tempfile', module => { module.$TemporaryFile = () => new WrittenFile(); });
define('subprocess', module => {
  const run = signed((words, input, stdout) => {
    const { status, bytes } = machine.run(words.slice(1), input);
    if (stdout instanceof WrittenFile) stdout.bytes = bytes;
    return { $returncode: status, $stdout: bytes };
  }, ['words', 'input', 'stdout', 'stderr', 'timeout'], false);
  Object.assign(module, { $run: run, $PIPE: 'pipe', $DEVNULL: 'nothing', $TimeoutExpired: class TimeoutExpired extends Exception {} });
});
define('json', module => { module.$dumps = signed(value => JSON.stringify(inJson(value)), ['value', 'separators', 'indent'], false); });
define('textwrap', module => { module.$wrap = signed(text => [text], ['text', 'width', 'break_on_hyphens'], false); });
define('unicodedata', module => { module.$name = (letter, other) => letterNames.get(letter.codePointAt(0)) || other; });
const letterNames = new Map();

// ---- difflib: words that are close, by the longest blocks that two have in common ----

function longestCommon(one, other, from, to, fromOther, toOther) {
  let best = [from, fromOther, 0], lengths = new Map();
  for (let at = from; at < to; at++) {
    const next = new Map();
    for (let place = fromOther; place < toOther; place++) {
      if (one[at] !== other[place]) continue;
      const length = (lengths.get(place - 1) || 0) + 1;
      next.set(place, length);
      if (length > best[2]) best = [at - length + 1, place - length + 1, length];
    }
    lengths = next;
  }
  return best;
}
function matching(one, other, from = 0, to = one.length, fromOther = 0, toOther = other.length) {
  const [at, place, length] = longestCommon(one, other, from, to, fromOther, toOther);
  return length === 0 ? 0 : length + matching(one, other, from, at, fromOther, place) + matching(one, other, at + length, to, place + length, toOther);
}
function closeMatches(word, words, most = 3, least = 0.6) {
  const found = [];
  for (const known of words) {
    const all = known.length + word.length, ratio = all ? 2 * matching(known, word) / all : 1;
    if (ratio >= least) found.push([ratio, known]);
  }
  return found.sort((one, other) => other[0] - one[0] || (one[1] < other[1] ? 1 : -1)).slice(0, most).map(pair => pair[1]);
}
define('difflib', module => { module.$get_close_matches = closeMatches; });

// ---- results, as plain values of JavaScript ----

function inJson(value) {
  if (value === null || value === undefined) return null;
  if (typeof value === 'bigint') return Number(value);
  if (typeof value !== 'object') return value;
  if (Array.isArray(value)) return value.map(inJson);
  if (value instanceof Dict) return Object.fromEntries(value.$items().map(([key, one]) => [String(key), inJson(one)]));
  if (value instanceof Bytes) return value.text;
  return [...value].map(inJson);
}
