'use strict';
// Gives to others: `Sentences`, a line of the trace as a sentence, with the lines of the script that caused it.

const MOST_CAUSES = 3;
const MOST_LEFT = 10;            // undelivered observations of a loop error
const MOST_SIZES = 8;            // sizes changed by one command

class Sentences {
  constructor(trace) { this.trace = trace; }

  thing(element) { return html`<button type="button" class="thing" data-element="${element}">${this.trace.name(element)}</button>`; }
  // The element that a line is about, or just its name if only the trace is shown.
  target(line, name) {
    const elements = this.trace.elements(line);
    return elements.length ? this.thing(elements[0]) : bold(name);
  }
  ref(line) { return html`<button type="button" class="ref" data-script="${line}" title="${this.trace.command(line)}">line ${line}</button>`; }
  // A command of the script, with the target's name for `$target` if that is known.
  code(line, target = -1) {
    const text = this.trace.command(line);
    return html`<code>${target < 0 ? text : text.replace(/\$target/g, this.trace.name(target))}</code>`;
  }
  causes(causes) {
    const others = causes.length - MOST_CAUSES;
    const row = ([line, said]) => html`<li>${this.ref(line)} ${this.code(line)} ${word(said)}</li>`;
    return html`<ul class="causes">${causes.slice(0, MOST_CAUSES).map(row)}${others > 0 && html`<li>and ${counted(others, 'more line')}</li>`}</ul>`;
  }

  sentence(line) {
    const words = this.trace.words(line), of = bold(words[1]);
    switch (words[0]) {
      case 'resize': return this.delivery(line, words);
      case 'intersect': return html`${of} reports that ${this.target(line, words[2])} ${this.meeting(words)}`;
      case 'event': return this.event(line, words);
      case 'timer': return html`Timer ${bold(words[2])} of ${of} is due`;
      case 'frame': return html`Frame callback ${bold(words[2])} of ${of}`;
      case 'task': return html`Task of ${of}`;
      case 'take': return html`The queue of ${of} is taken: ${counted(Number(words[2]), 'entry', 'entries')}`;
      case 'say': return html`The script says ${of}`;
      case 'read': return this.reading(line, words);
      case 'throw': return html`${this.ref(words[1])} throws ${this.kindOfThrow(line)}: ${this.thrown(line, Number(words[1]))}`;
      case 'limit': return html`${this.ref(words[2])} meets the <b class="bad">limit ${words[1]}</b>, ${number(Number(words[3]))}: ${
        this.code(Number(words[2]))}`;
      case 'syntax': return html`<b class="bad">Not a script</b>: the first syntax error is in ${this.ref(words[1])}, column ${words[2]}`;
      default: return html`${words.join(' ')}`;
    }
  }
  kindOfThrow(line) { return html`<b class="odd">${this.trace.words(line)[2]}</b>`; }
  thrown(line, at) {
    const elements = this.trace.elements(line);
    return this.code(at, elements.length === 1 ? elements[0] : -1);
  }
  delivery(line, words) {
    const more = this.trace.more(line) && this.trace.more(line)[0] === 'told' ? this.trace.more(line) : null, box = more ? more[1] : 'content';
    const size = { content: words.slice(6, 8), border: words.slice(9, 11), device: words.slice(12, 14) }[box].join(' \u00d7 ');
    const before = !more ? '' : more.length > 2 ? `previously ${toldSize(box, more[2], more[3])}` : 'for the first time';
    return html`${bold(words[1])} reports ${this.target(line, words[2])}: ${sized(size)} ${OBSERVED[box]}${before && html`, <span class="before">${before}</span>`}`;
  }
  meeting(words) {
    return words[4] === 'yes' ? html`<b>intersects</b> its root: ${seenPart(words[5])}` : html`<b>doesn\u2019t intersect</b> its root`;
  }
  reading(line, words) {
    const isScrolled = words[6] !== '0' || words[7] !== '0';
    return html`${this.target(line, words[1])} is read: ${words[4]} \u00d7 ${words[5]} at ${words[2]} ${words[3]}${
      isScrolled && `, scrolled to ${words[6]} ${words[7]}`}`;
  }
  event(line, words) {
    if (words[1] === 'error') return this.loopError(line);
    const elements = this.trace.elements(line), isElement = elements.length && this.trace.name(elements[0]) === words[2];
    const target = words[2].startsWith('@') ? html`the window of ${bold(words[2].slice(1))}` : isElement ? this.thing(elements[0]) : bold(words[2]);
    const state = words[1] === 'change' && (words[3] === 'true' ? ': it matches now' : ': it no longer matches');
    return html`Event ${bold(words[1])} at ${target}${state}`;
  }

  // ---- what went wrong ----

  // A loop error with each observation that was left undelivered.
  loopError(line) {
    const more = this.trace.more(line);
    if (!more) return html`<b class="bad">Loop error</b>`;
    const left = more.slice(2), others = left.length - MOST_LEFT, many = left.length === 1 ? 'a size was' : `${number(left.length)} sizes were`;
    const row = ([observer, element, box, depth, told, oldWidth, oldHeight, width, height]) => html`<li>${bold(observer)} ${
      told ? `last reported ${toldSize(box, oldWidth, oldHeight)}` : 'has reported nothing'} for ${this.thing(element)} at depth ${depth}; its ${OBSERVED[box]} ${
      box === 'device' ? 'are' : 'is'} ${sized(toldSize(box, width, height))} now</li>`;
    return html`<b class="bad">Loop error</b>: ${many} left unreported. The loop had reached depth ${more[1]}, and delivers only what is deeper.
      <ul class="left">${left.slice(0, MOST_LEFT).map(row)}${others > 0 && html`<li>and ${number(others)} more</li>`}</ul>`;
  }
  // A loop error in one sentence, for the heading of its tick.
  shortError(line) {
    const left = this.trace.more(line).slice(2), [, element, box, , told, oldWidth, oldHeight, width, height] = left[0], others = left.length - 1;
    const by = this.trace.causes(line).filter(([, said]) => said === 'changed the size').pop();
    return html`<b class="bad">Loop error</b> in ${bold(this.trace.words(line)[2].slice(1))}: ${this.thing(element)} ${
      told ? `was last reported as ${toldSize(box, oldWidth, oldHeight)}` : 'hasn\u2019t been reported'} and is ${sized(toldSize(box, width, height))}${
      by && html` since ${this.ref(by[0])} ${this.code(by[0])}`}${others > 0 && `; ${counted(others, 'more size')} ${others === 1 ? 'is' : 'are'} unreported`}.`;
  }
  trouble(line) { return this.trace.isError(line) && this.trace.more(line) ? this.shortError(line) : this.sentence(line); }

  // ---- commands of handlers ----

  command([, line, level, target, how, sizes], mark = '') {
    return html`<li class="command" ${mark} style="--level:${level}">${this.ref(line)} ${this.code(line, target)} ${this.how(line, how)}${
      sizes.length > 0 && this.sizes(sizes)}</li>`;
  }
  how(line, how) {
    if (how < 0) return '';
    const isCondition = this.trace.command(line).startsWith('when ');
    return word(isCondition ? (how ? 'holds' : 'doesn\u2019t hold') : counted(how, 'entry', 'entries'));
  }
  sizes(sizes) {
    const others = sizes.length - MOST_SIZES;
    const row = ([observer, element, box, oldWidth, oldHeight, width, height]) => html`<li>${this.thing(element)}: ${
      toldSize(box, oldWidth, oldHeight)} \u2192 ${sized(toldSize(box, width, height))} ${word(`${OBSERVED[box]}, observed by ${observer}`)}</li>`;
    return html`<ul class="sizes">${sizes.slice(0, MOST_SIZES).map(row)}${others > 0 && html`<li>and ${number(others)} more sizes</li>`}</ul>`;
  }
}
