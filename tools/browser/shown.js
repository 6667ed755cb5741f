// Shows a script's trace by the rules and this browser's trace side by side. The result is the JSON in the element `result`, the
// attribute `data-result` of the page's root element (same, differs, not-shown, failed), and what observersResult resolves to.

// Pairs of lines with a mark if they differ: '+' only in this browser, '-' only by the rules, '!' different lines.
function observersBeside(left, right) {
  let head = 0, tail = 0;
  const least = Math.min(left.length, right.length);
  while (head < least && left[head] === right[head]) head++;
  while (tail < least - head && left[left.length - 1 - tail] === right[right.length - 1 - tail]) tail++;
  const same = lines => lines.map(line => [line, line, ' ']);
  return [
    ...same(left.slice(0, head)),
    ...observersPaired(left.slice(head, left.length - tail), right.slice(head, right.length - tail)),
    ...same(left.slice(left.length - tail)),
  ];
}
// Along a longest common subsequence of lines; for long traces, line by line.
function observersPaired(left, right) {
  const rows = [], common = left.length * right.length < 4e6 ? observersCommon(left, right) : null;
  let at = 0, to = 0;
  const upTo = (a, b) => {
    for (; at < a || to < b; at++, to++) {
      const one = at < a ? left[at] : '', two = to < b ? right[to] : '';
      rows.push([one, two, one && two ? (one === two ? ' ' : '!') : one ? '-' : '+']);
    }
    at = a;
    to = b;
  };
  for (const [a, b] of common || []) {
    upTo(a, b);
    upTo(a + 1, b + 1);
  }
  upTo(left.length, right.length);
  return rows;
}
function observersCommon(left, right) {
  const wide = right.length + 1, longest = new Uint32Array((left.length + 1) * wide);
  for (let a = left.length - 1; a >= 0; a--) {
    for (let b = right.length - 1; b >= 0; b--) {
      longest[a * wide + b] = left[a] === right[b] ? longest[(a + 1) * wide + b + 1] + 1
        : Math.max(longest[(a + 1) * wide + b], longest[a * wide + b + 1]);
    }
  }
  const pairs = [];
  for (let a = 0, b = 0; a < left.length && b < right.length;) {
    if (left[a] === right[b]) pairs.push([a++, b++]);
    else if (longest[(a + 1) * wide + b] >= longest[a * wide + b + 1]) a++;
    else b++;
  }
  return pairs;
}

async function observersAnswer({ script, size, frame }) {
  const attempt = frame ? () => observersInFrame(script, size, document.getElementById('stage')) : () => observersInWindow(script, size, window);
  try {
    const answer = await observersCalm(attempt);
    if (answer.stop) return ['not-shown', answer.stop[1], answer.lines];
    if (answer.disturbed) return ['not-shown', 'it ran updates that no tick asked for', answer.lines];
    return ['', '', answer.lines];
  } catch (e) {
    return ['failed', String(e), []];
  }
}

async function observersShown(plan, rules) {
  const [failed, why, lines] = await observersAnswer(plan);
  const rows = observersBeside(rules, lines), differ = rows.filter(row => row[2] !== ' ').length;
  const result = failed || (differ ? 'differs' : 'same');
  const body = document.querySelector('#traces tbody');
  body.replaceChildren(...rows.map(([left, right, mark]) => {
    const row = document.createElement('tr');
    row.className = { ' ': 'same', '!': 'other', '-': 'rules', '+': 'browser' }[mark];
    for (const text of [left, mark, right]) row.insertCell().textContent = text;
    return row;
  }));
  const sentences = {
    same: 'This browser gives the trace of the rules.', differs: `This browser differs from the rules in ${differ} of ${rows.length} lines.`,
    'not-shown': `This browser can't show the script: ${why}.`, failed: `The page failed: ${why}.`,
  };
  document.getElementById('verdict').textContent = sentences[result];
  document.documentElement.dataset.result = result;
  const told = { result, why, browser: lines, rules, agent: navigator.userAgent };
  document.getElementById('result').textContent = JSON.stringify(told);
  return told;
}
