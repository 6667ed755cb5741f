// The proved program in a page or in Node: `const mifdagus = await load(); mifdagus.replay(text)`.

const STATUSES = ['done', 'syntax', 'limit', 'no-memory', 'read-fault', 'too-long', 'usage', 'differs'];
// A reply that is longer is asked for again, with as much room as it needs.
const FIRST_ROOM = 1 << 20;
// A module's memory never shrinks: past this size the next call begins with a new one.
const MOST_KEPT = 1 << 28;

/** The text isn't a script: `line` and `column` say where its first fault is. */
export class SyntaxRefusal extends Error {
  constructor(line, column) {
    super(line ? `line ${line}, column ${column}: the text isn't a script from here on` : "the text isn't a script");
    this.name = 'SyntaxRefusal';
    this.line = line;
    this.column = column;
  }
}

/** A number or a length isn't one that the call takes. */
export class UsageRefusal extends Error {
  constructor(message) {
    super(message);
    this.name = 'UsageRefusal';
  }
}

/** There was too little memory for the call. */
export class OutOfMemory extends Error {
  constructor() {
    super("out of memory: nothing is known of the reply; try a shorter script, or close what else takes memory");
    this.name = 'OutOfMemory';
  }
}

/** The module stopped in the middle of a call, as for lack of stack. The next call begins with a new one. */
export class Stopped extends Error {
  constructor(cause) {
    super(`the module stopped (${cause.message}); the next call begins with a new one`, { cause });
    this.name = 'Stopped';
  }
}

const USAGE = 'a tick is from 1 to 1000000, another number from 0 to 1000000; a length is as in 5px or -0.5px';
const TOO_OLD = 'it needs 64-bit memory, as Chromium 133, Firefox 134 and Node 24 have it';
const encoder = new TextEncoder();
const decoder = new TextDecoder();

function bytesOf(text, name) {
  if (typeof text === 'string') return encoder.encode(text);
  if (text instanceof ArrayBuffer) return new Uint8Array(text);
  if (ArrayBuffer.isView(text)) return new Uint8Array(text.buffer, text.byteOffset, text.byteLength);
  throw new TypeError(`${name} must be a string, an ArrayBuffer or a view of one`);
}

function numberOf(value, name) {
  if (typeof value === 'number' && Number.isSafeInteger(value) && value >= 0) return BigInt(value);
  throw new UsageRefusal(`${name} must be a whole number from 0 on`);
}

function lengthOf(value, name) {
  if (typeof value === 'number' && Number.isFinite(value)) value = `${value}px`;
  if (typeof value === 'string') return encoder.encode(value);
  throw new TypeError(`${name} must be a number of pixels or a length such as '0.5px'`);
}

function limitOf(text) {
  const found = /^(?:\S+ )?limit (\S+) (\d+) (\d+)$/.exec(text.trimEnd().split('\n').at(-1));
  return found && { kind: found[1], line: Number(found[2]), number: Number(found[3]) };
}

function replyOf(status, text) {
  if (status === 'syntax') {
    const found = /(?:^|\n)(?:\S+ )?syntax (\d+) (\d+)\n/.exec(text);
    throw new SyntaxRefusal(found ? Number(found[1]) : 0, found ? Number(found[2]) : 0);
  }
  return { status, text, limit: status === 'limit' ? limitOf(text) : null };
}

/** The program's jobs. `load` makes one. */
export class Mifdagus {
  #module;
  #exports = null;

  constructor(module) {
    this.#module = module;
  }

  /** The script's trace. */
  replay(script) {
    return this.#answer('replay', [], bytesOf(script, 'script'));
  }

  /** `ok` and the number of the script's commands. */
  check(script) {
    return this.#answer('check', [], bytesOf(script, 'script'));
  }

  /** Whether the script's resize loops always go deeper, and whether none ends with the error. */
  lint(script) {
    return this.#answer('lint', [], bytesOf(script, 'script'));
  }

  /** How many lines of each kind the script's trace has. */
  summary(script) {
    return this.#answer('summary', [], bytesOf(script, 'script'));
  }

  /** The script in its one printed form. */
  print(script) {
    return this.#answer('print', [], bytesOf(script, 'script'));
  }

  /** Each box at the end of the script's tick of this number, counted from 1. */
  inspect(script, tick) {
    return this.#answer('inspect', [numberOf(tick, 'tick')], bytesOf(script, 'script'));
  }

  /** The elements that a point of the viewport hits at the end of that tick, topmost first. */
  hit(script, tick, x, y) {
    const words = [numberOf(tick, 'tick'), lengthOf(x, 'x'), lengthOf(y, 'y')];
    return this.#answer('hit', words, bytesOf(script, 'script'));
  }

  /** Whether the trace recorded after the script's line `trace` is the script's. */
  judge(recording) {
    return this.#answer('judge', [], bytesOf(recording, 'recording'));
  }

  /** The traces of several pages; a line `page NAME` says whose script the next lines belong to. */
  pages(stream) {
    return this.#answer('pages', [], bytesOf(stream, 'stream'), false);
  }

  /** The script that is generated from this number. */
  generate(number) {
    return this.#answer('generate', [numberOf(number, 'number')]);
  }

  /** The summary of that script's trace. */
  generateRun(number) {
    return this.#answer('generate_run', [numberOf(number, 'number')]);
  }

  #answer(job, words, source = null, refuses = true) {
    const { status, text } = this.#call(job, source ? [...words, source] : words);
    if (status === 'usage') throw new UsageRefusal(USAGE);
    if (status === 'no-memory') throw new OutOfMemory();
    return status === 'syntax' && !refuses ? { status, text, limit: null } : replyOf(status, text);
  }

  #call(job, values) {
    try {
      this.#exports ??= new WebAssembly.Instance(this.#module, {}).exports;
      return this.#inRoom(job, values);
    } catch (fault) {
      throw fault instanceof WebAssembly.RuntimeError || fault instanceof RangeError ? new Stopped(fault) : fault;
    } finally {
      if (this.#exports && this.#exports.memory.buffer.byteLength > MOST_KEPT) this.#exports = null;
    }
  }

  #inRoom(job, values) {
    const taken = [];
    try {
      const words = values.flatMap((value) => (typeof value === 'bigint' ? [value] : this.#put(value, taken)));
      const needed = this.#take(8, taken);
      for (let room = FIRST_ROOM; ; ) {
        const at = this.#take(room, taken);
        const code = this.#exports[`mifdagus_raw_${job}`](...words, at, BigInt(room), needed);
        const length = Number(new DataView(this.#exports.memory.buffer).getBigUint64(Number(needed), true));
        if (STATUSES[code] !== 'too-long') return { status: STATUSES[code], text: this.#text(at, length) };
        this.#exports.mifdagus_give(taken.pop());
        room = length;
      }
    } catch (fault) {
      // A module that stopped may have been in the middle of a change of its memory.
      if (!(fault instanceof OutOfMemory)) this.#exports = null;
      throw fault;
    } finally {
      for (const at of taken) this.#exports?.mifdagus_give(at);
    }
  }

  #take(size, taken) {
    const at = this.#exports.mifdagus_take(BigInt(size));
    if (at === 0n) throw new OutOfMemory();
    taken.push(at);
    return at;
  }

  #put(bytes, taken) {
    const at = this.#take(bytes.length, taken);
    new Uint8Array(this.#exports.memory.buffer, Number(at), bytes.length).set(bytes);
    return [at, BigInt(bytes.length)];
  }

  #text(at, length) {
    return decoder.decode(new Uint8Array(this.#exports.memory.buffer, Number(at), length));
  }
}

async function bytesAt(place) {
  const help = 'build it with bin/build --web, and serve it beside mifdagus.js';
  if (place.protocol === 'file:' && globalThis.process?.versions?.node) {
    const { readFile } = await import('node:fs/promises');
    return readFile(place).catch((fault) => {
      throw new Error(`${place} can't be read (${fault.code}): ${help}`, { cause: fault });
    });
  }
  const answer = await fetch(place);
  if (!answer.ok) throw new Error(`${place} can't be read (${answer.status}): ${help}`);
  return answer.arrayBuffer();
}

/** Loads the module: from `mifdagus.wasm` beside this file, or from a URL, its bytes, or a compiled module. */
export async function load(source = new URL('mifdagus.wasm', import.meta.url)) {
  if (source instanceof WebAssembly.Module) return new Mifdagus(source);
  const isPlace = typeof source === 'string' || source instanceof URL;
  const bytes = isPlace ? await bytesAt(new URL(source, import.meta.url)) : bytesOf(source, 'source');
  try {
    return new Mifdagus(await WebAssembly.compile(bytes));
  } catch (fault) {
    throw new Error(`this engine can't compile the module (${fault.message}): ${TOO_OLD}`, { cause: fault });
  }
}
