// Runs a script with the updates that a browser schedules itself, in a given window or in a frame of known size.
// The answer is { lines, stop, disturbed }: the trace; null, or a word and a sentence if the page can't show all of the script;
// and whether an update came that no tick asked for.

// Turns of the event loop, for what a browser reports by timers of its own.
async function observersTurns() {
  for (let turn = 0; turn < 2; turn++) await new Promise(done => setTimeout(done, 0));
}

async function observersLive(script, window, setting) {
  const run = observersRun(script, window, Object.assign({ live: true }, setting));
  for (;;) {
    const wants = await run.step();
    if (wants[0] !== 'tick') {
      return { lines: run.lines, stop: wants[0] === 'end' ? null : wants, disturbed: run.disturbed };
    }
    await run.update;
    await run.drained();
    await observersTurns();
    await run.drained();
  }
}

// Waits for the first updates of an empty page in no-quirks mode.
async function observersSettled(window) {
  for (let update = 0; update < 2; update++) await new Promise(done => window.requestAnimationFrame(done));
  await observersTurns();
}
function observersEmptied(window) {
  window.document.open();
  window.document.write('<!doctype html>');
  window.document.close();
}

async function observersInFrame(script, size, holder) {
  const frame = holder.ownerDocument.createElement('iframe');
  const resize = (width, height) => {
    frame.style.width = width + 'px';
    frame.style.height = height + 'px';
    // Reading a size forces layout of the page around the frame, so that the frame knows its size before the update. Firefox needs the
    // frame's own size to be read; in WebKit that would evaluate media query lists without an event.
    frame.getBoundingClientRect();
    if ('mozInnerScreenX' in window && frame.contentWindow) frame.contentWindow.innerWidth;
  };
  frame.style.cssText = 'display:block;border:0;margin:0;padding:0;flex:none';
  resize(...size);
  holder.append(frame);
  try {
    observersEmptied(frame.contentWindow);
    await observersSettled(frame.contentWindow);
    return await observersLive(script, frame.contentWindow, { resize });
  } finally {
    frame.remove();
  }
}

// In a new window, if the browser opens one of that size.
async function observersInWindow(script, size, opener) {
  const opened = opener.open('about:blank', '_blank', `popup,width=${size[0]},height=${size[1]}`);
  if (!opened) return { lines: [], stop: ['not-shown', "it opens a window for it only after 'Run again' is pressed"], disturbed: false };
  try {
    observersEmptied(opened);
    await observersSettled(opened);
    if (opened.innerWidth !== size[0] || opened.innerHeight !== size[1]) {
      const sentence = `the browser opened a window of ${opened.innerWidth} by ${opened.innerHeight} instead of ${size.join(' by ')}`;
      return { lines: [], stop: ['not-shown', sentence], disturbed: false };
    }
    return await observersLive(script, opened, {});
  } finally {
    opened.close();
  }
}

// Runs again if an update came in between, as on a busy machine.
async function observersCalm(attempt) {
  let answer;
  for (let left = 10; left > 0; left--) {
    answer = await attempt();
    if (!answer.disturbed) break;
  }
  return answer;
}
