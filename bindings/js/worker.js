// Runs the calls that limited.js sends, one after another.
import { load } from './mifdagus.js';

const isNode = Boolean(globalThis.process?.versions?.node) && !globalThis.WorkerGlobalScope;
const port = isNode ? (await import('node:worker_threads')).parentPort : globalThis;
let mifdagus = null;

async function answer({ number, source, job, values }) {
  try {
    mifdagus ??= await load(source ?? undefined);
    port.postMessage({ number, reply: mifdagus[job](...values) });
  } catch (fault) {
    port.postMessage({ number, fault: { name: fault.name, message: fault.message, line: fault.line, column: fault.column } });
  }
}

if (isNode) port.on('message', answer);
else port.onmessage = (event) => answer(event.data);
