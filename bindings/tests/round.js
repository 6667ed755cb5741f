// What a page and Node run through the module: the same calls, each with what it answered.

async function told(call) {
  try {
    const { status, text } = await call();
    return { status, text };
  } catch (fault) {
    return { fault: fault.name, line: fault.line, column: fault.column, message: fault.message };
  }
}

/** What `load` says of sources that are no module. */
export async function refusals(load) {
  const said = async (source) => (await told(() => load(source))).message ?? 'loaded';
  return { bad: await said(new Uint8Array([1, 2, 3])), number: await said(5), missing: await said(new URL('missing.wasm', import.meta.url)) };
}

/** What the calls in a worker answer, also where no module can be compiled. */
export async function limitedRound(Limited) {
  const limited = new Limited({ seconds: 20 });
  const quick = await told(() => limited.replay('script 1\nsay a\n'));
  const wrong = await told(() => limited.replay('script 1\nsay 5\n'));
  const odd = await told(() => limited.replay(() => 5));
  const closed = told(() => limited.generateRun(999999));
  await new Promise((resolve) => setTimeout(resolve, 0));
  limited.close();
  const again = await told(() => limited.replay('script 1\nsay b\n'));
  limited.close();
  const slow = await told(() => new Limited({ seconds: 0.0001 }).generateRun(999999));
  return { quick, wrong, odd, closed: await closed, again, slow };
}

export async function round(load, Limited, cases) {
  const mifdagus = await load();
  const began = performance.now();
  const answers = [];
  for (const [job, ...values] of cases) answers.push(await told(() => mifdagus[job](...values)));
  const milliseconds = performance.now() - began;
  const endless = 'script 1\nhandler h\n' + 'say a\npost top h\n'.repeat(2) + 'end\npost top h\ntick 0\n';
  const types = await told(() => mifdagus.replay(5));
  const limit = await told(() => mifdagus.replay(endless));
  return { answers, milliseconds, types, limit: { status: limit.status }, ...(await limitedRound(Limited)), ...(await refusals(load)) };
}
