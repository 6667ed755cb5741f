'use strict';
// The program as a WebAssembly module, by the calls of bindings/js: arguments and a text give a status and what is written.

class Program {
  constructor(module) { this.calls = new Mifdagus(module); }
  run([job = '', ...more], bytes) {
    const { replay, check, lint, summary, print, inspect, hit, judge, pages, generate, generateRun } = this.calls;
    const numbers = more.map(Number), jobs = { '': [replay, bytes], '--check': [check, bytes], '--lint': [lint, bytes], '--summary': [summary, bytes],
      '--print': [print, bytes], '--inspect': [inspect, bytes, numbers[0]], '--hit': [hit, bytes, numbers[0], more[1], more[2]], '--judge': [judge, bytes],
      '--pages': [pages, bytes], '--generate': [generate, numbers[0]], '--generate-run': [generateRun, numbers[0]] };
    const [call, ...given] = jobs[job];
    try {
      const { status, text } = call.apply(this.calls, given);
      return { status: STATUS_NAMES.indexOf(status), bytes: encoded.encode(text) };
    } catch (refused) {
      if (refused instanceof SyntaxRefusal) return { status: 1, bytes: encoded.encode(`syntax ${refused.line} ${refused.column}\n`) };
      if (refused instanceof OutOfMemory) return { status: 3, bytes: new Uint8Array(0) };
      throw refused;
    }
  }
}
const STATUS_NAMES = ['done', 'syntax', 'limit', 'no-memory', 'read-fault', 'too-long', 'usage', 'differs'], encoded = new TextEncoder();
