// The same calls in a worker, each with a limit of time: `await new Limited({ seconds: 5 }).replay(text)`.
import { OutOfMemory, Stopped, SyntaxRefusal, UsageRefusal } from './mifdagus.js';

/** The call took longer than it may: its worker was ended, and the next call begins with a new one. */
export class OutOfTime extends Error {
  constructor(seconds) {
    super(`the call took more than ${seconds} s and was ended; allow more, or give a shorter script`);
    this.name = 'OutOfTime';
  }
}

const JOBS = ['replay', 'check', 'lint', 'summary', 'print', 'inspect', 'hit', 'judge', 'pages', 'generate', 'generateRun'];

async function startWorker(onAnswer, onFault) {
  const place = new URL('worker.js', import.meta.url);
  if (globalThis.Worker) {
    const worker = new Worker(place, { type: 'module' });
    worker.addEventListener('message', ({ data }) => onAnswer(data));
    worker.addEventListener('error', ({ message }) => onFault(message));
    return worker;
  }
  const { Worker: NodeWorker } = await import('node:worker_threads');
  const worker = new NodeWorker(place);
  worker.on('message', onAnswer);
  worker.on('error', ({ message }) => onFault(message));
  return worker;
}

function faultOf({ name, message, line, column }) {
  if (name === 'SyntaxRefusal') return new SyntaxRefusal(line, column);
  if (name === 'OutOfMemory') return new OutOfMemory();
  if (name === 'UsageRefusal') return new UsageRefusal(message);
  return name === 'Stopped' ? new Stopped({ message }) : Object.assign(new Error(message), { name });
}

/** Calls wait for one another. `source` is what `load` takes. */
export class Limited {
  #seconds;
  #source;
  #worker = null;
  #number = 0;
  #last = Promise.resolve();
  #pending = null;

  constructor({ seconds = 10, source = null } = {}) {
    this.#seconds = seconds;
    this.#source = source instanceof URL ? source.href : source;
    for (const job of JOBS) this[job] = (...values) => this.#after(() => this.#call(job, values));
  }

  /** Ends the worker. A call that runs is refused; a later one begins with a new worker. */
  close() {
    this.#stop(new Error('the worker was closed'));
  }

  #after(call) {
    const next = this.#last.then(call, call);
    this.#last = next.catch(() => {});
    return next;
  }

  #stop(fault) {
    this.#worker?.then((worker) => worker.terminate());
    this.#worker = null;
    this.#settle((pending) => pending.reject(fault));
  }

  #settle(how) {
    const pending = this.#pending;
    this.#pending = null;
    if (!pending) return;
    clearTimeout(pending.timer);
    how(pending);
  }

  #take({ number, reply, fault }) {
    if (this.#pending?.number !== number) return;
    this.#settle(({ resolve, reject }) => (fault ? reject(faultOf(fault)) : resolve(reply)));
  }

  async #call(job, values) {
    const help = 'serve worker.js and mifdagus.wasm beside limited.js';
    const onFault = (message) => this.#stop(new Error(`the worker can't run (${message}): ${help}`));
    const worker = await (this.#worker ??= startWorker((answer) => this.#take(answer), onFault));
    return new Promise((resolve, reject) => {
      const timer = setTimeout(() => this.#stop(new OutOfTime(this.#seconds)), this.#seconds * 1000);
      this.#pending = { number: ++this.#number, resolve, reject, timer };
      try {
        worker.postMessage({ number: this.#number, source: this.#source, job, values });
      } catch (fault) {
        this.#settle(() => reject(new TypeError(`the call's values can't be passed to a worker (${fault.message})`)));
      }
    });
  }
}
