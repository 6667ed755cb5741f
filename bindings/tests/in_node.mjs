// Reads cases from standard input, runs them through the module in Node and writes what each answered; bindings/tests/in_node.py compares.
// An engine without 64-bit memory runs what needs no module, and says so in `lacks`. Usage: node in_node.mjs FOLDER-OF-mifdagus.js
import { readFileSync } from 'node:fs';
import { pathToFileURL } from 'node:url';
import { limitedRound, refusals, round } from './round.js';

const folder = pathToFileURL(process.argv[2].replace(/\/?$/, '/'));
const { load } = await import(new URL('mifdagus.js', folder));
const { Limited } = await import(new URL('limited.js', folder));

async function lacking() {
  try {
    await load();
    return null;
  } catch (fault) {
    return fault.message;
  }
}

const lacks = await lacking();
const cases = JSON.parse(readFileSync(0, 'utf8'));
const told = lacks ? { lacks, ...(await limitedRound(Limited)), ...(await refusals(load)) } : await round(load, Limited, cases);
process.stdout.write(JSON.stringify(told));
process.exit(0);
