'use strict';
// Gives to others: `html` and `shown`, text for the page, and words for numbers. All of it goes through `html`, which escapes the values that it is given.

class Html { constructor(text) { this.text = text; } }
const ESCAPES = { '&': '&amp;', '<': '&lt;', '>': '&gt;', '"': '&quot;', "'": '&#39;' };
function shown(value) {
  if (value instanceof Html) return value.text;
  if (Array.isArray(value)) return value.map(shown).join('');
  if (value === null || value === undefined || value === false) return '';
  return String(value).replace(/[&<>"']/g, letter => ESCAPES[letter]);
}
function html(parts, ...values) {
  return new Html(parts.reduce((all, part, at) => all + part + (at < values.length ? shown(values[at]) : ''), ''));
}
const COUNTS = new Intl.NumberFormat('en');
const number = count => COUNTS.format(count);
const counted = (count, one, many = one + 's') => `${number(count)} ${count === 1 ? one : many}`;
function listed(parts) {
  return parts.length < 2 ? parts.join('') : parts.slice(0, -1).join(', ') + ' and ' + parts[parts.length - 1];
}
// What is observed, and its size: the box `device` is the content box in device pixels.
const OBSERVED = { content: 'content box', border: 'border box', device: 'device pixels' };
const toldSize = (box, width, height) => box === 'device' ? `${width} \u00d7 ${height}` : sizeText(width, height);
const word = said => html`<span class="word">${said}</span>`;
const bold = said => html`<b>${said}</b>`;
const sized = said => html`<b class="size">${said}</b>`;
// Text with names between backquotes.
const quoted = text => text.split('`').map((part, at) => at % 2 ? bold(part) : html`${part}`);
// The visible part of an intersection.
function seenPart(text) {
  const [part, whole] = text.split('/').map(BigInt);
  if (part === whole) return 'all of it is visible';
  if (part === 0n) return 'only edges touch';
  const about = part * 10000n % whole === 0n ? '' : 'about ';
  return `${about}${Number(part * 10000n / whole) / 100}% of it is visible`;
}
// The lines of an explanation; indented ones are preformatted.
function explained(lines) {
  const parts = [];
  for (const line of lines) {
    const isSetIn = line.startsWith(' '), last = parts[parts.length - 1];
    if (isSetIn && last && last.isSetIn) last.lines.push(line);
    else parts.push({ isSetIn, lines: [line] });
  }
  return parts.map(part => part.isSetIn ? html`<pre>${part.lines.join('\n')}</pre>` : html`<p>${quoted(part.lines[0])}</p>`);
}
