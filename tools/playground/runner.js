'use strict';
// Runs scripts in the worker. Only the newest text counts: one that comes while another runs waits for it, and ends it if it takes long.
// Once a run has its picture, a newer text needn't wait for what is still to be said about it.

const PATIENCE = 1500;                 // milliseconds that a newer text waits for a run

class Runner {
  // `tell` is given what the worker says of the newest run.
  constructor(program, start, tell) {
    Object.assign(this, { program, start, tell, id: 0, running: null, told: null, next: null, asked: new Map(), began: 0 });
    this.address = URL.createObjectURL(new Blob([program], { type: 'text/javascript' }));
    this.open();
  }
  open() {
    this.worker = new Worker(this.address);
    this.worker.onmessage = event => this.heard(event.data);
    this.worker.onerror = event => { event.preventDefault(); this.heard({ kind: 'failed', id: this.running, of: 'run', sentence: event.message }); };
    this.worker.postMessage({ kind: 'begin', ...this.start });
  }
  // Ends the worker and what it does, and begins anew.
  end() {
    this.worker.terminate();
    for (const done of this.asked.values()) done(null);
    this.asked.clear();
    this.running = this.told = null;
    this.open();
  }
  get isIdle() { return this.running === null && this.told === null && this.next === null; }
  run(bytes, name) {
    this.next = { bytes, name };
    if (this.running === null) this.begin();
    else if (performance.now() - this.began > PATIENCE) { this.end(); this.begin(); }
    else {
      clearTimeout(this.waiting);
      this.waiting = setTimeout(() => { if (this.next && this.running !== null) { this.end(); this.begin(); } }, PATIENCE);
    }
  }
  begin() {
    const { bytes, name } = this.next, isBusy = this.told !== null, id = ++this.id;
    this.next = this.told = null;
    this.running = id;
    this.began = performance.now();
    clearTimeout(this.waiting);
    if (isBusy) this.waiting = setTimeout(() => { if (this.running === id && !this.hasTrace) this.again(bytes, name); }, PATIENCE);
    this.hasTrace = false;
    this.tell({ kind: 'begun', id: this.id });
    this.worker.postMessage({ kind: 'run', id: this.id, bytes, name });
  }
  // The worker is still busy with an older run.
  again(bytes, name) {
    this.next ||= { bytes, name };
    this.end();
    this.begin();
  }
  stop() {
    if (this.isIdle) return false;
    this.next = null;
    this.end();
    return true;
  }
  // Asks the worker something else; null if it was ended meanwhile.
  ask(kind, more) {
    const id = ++this.id;
    return new Promise(done => {
      this.asked.set(id, done);
      this.worker.postMessage({ kind, id, ...more });
    });
  }
  heard(message) {
    if (message.kind === 'ready') return;
    if (this.asked.has(message.id)) {
      this.asked.get(message.id)(message.kind === 'failed' ? null : message);
      this.asked.delete(message.id);
      return;
    }
    if (message.id !== this.running && message.id !== this.told) return;
    if (message.kind === 'trace') this.hasTrace = true;
    if (message.kind === 'picture') Object.assign(this, { running: null, told: message.id });
    if (message.kind === 'said' || message.kind === 'failed') this.running = this.told = null;
    const isOld = this.next !== null;
    if (this.running === null && isOld) this.begin();
    if (!isOld) this.tell(message);
  }
}
