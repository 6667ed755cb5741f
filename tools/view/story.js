'use strict';
// Gives to others: `Story`, a tick in words: what happened in it, in order. What can be chosen has `data-line`, or `data-moment`: the place
// of an item in the log of its tick.

const MOST_SHOWN = 40;           // items of a group before a button for the others
const MOST_OUTSIDE = 12;         // up to this many, all commands before a tick are shown
const MOST_TROUBLES = 3;
const LOOP = 'Resize loop';
const PHASES = [
  ['timer', 'Timers'], ['event resize', 'Resized viewports'], ['event scroll', 'Scrolls'], ['event change', 'Media queries'],
  ['frame', 'Frame callbacks'], ['resize', LOOP], ['round', LOOP], ['event error', LOOP], ['intersect', 'Intersections'],
  ['task', 'Tasks'], ['limit', 'Limit'], ['syntax', 'Not a script'],
];
const NOTHING = 'No timer was due, no observed size had changed, no target came into view or left it, and no task was waiting.';

class Story {
  constructor(trace, sentences) { Object.assign(this, { trace, sentences, all: false }); }

  // ---- the log of a tick, in parts ----

  phaseOf(line) {
    const text = this.trace.text(line), found = PHASES.find(([begin]) => text === begin || text.startsWith(begin + ' '));
    return found ? found[1] : '';
  }
  // { title, items } for each phase, and { title, document, rounds } for a resize loop. An item is one of the log, or a call with its own items.
  phases(log) {
    const phases = [];
    let call = null;
    const phase = title => {
      if (!phases.length || title && phases[phases.length - 1].title !== title) phases.push({ title, items: [] });
      return phases[phases.length - 1];
    };
    for (const item of log) {
      if (item[0] === 'handler') {
        call = { call: item[1], line: item[2], items: [] };
        phase('').items.push(call);
      } else if (item[0] === 'end') call = null;
      else if (call) call.items.push(item);
      else if (item[0] !== 'line') phase('').items.push(item);
      else if (this.trace.kind(item[1]) !== 'tick') phase(this.phaseOf(item[1])).items.push(item);
    }
    return phases.flatMap(one => one.title === LOOP ? this.loops(one.items) : [one]);
  }
  // The items of resize loops by document. A line `round` ends a round and names its document; a loop error does the same for the loop.
  loops(items) {
    const loops = [];
    for (const round of this.rounds(items)) {
      const last = loops[loops.length - 1], isNext = last && !last.isClosed && [last.document, null].includes(round.document);
      if (isNext) last.rounds.push(round);
      else loops.push({ title: LOOP, document: round.document, rounds: [round] });
      loops[loops.length - 1].isClosed = round.isError;
    }
    return loops;
  }
  rounds(items) {
    const rounds = [];
    let open = null;
    const begin = isError => rounds.push(open = { items: [], document: null, depth: null, ended: -1, isError });
    for (const item of items) {
      const kind = item[0] === 'line' ? this.trace.kind(item[1]) : '', words = kind ? this.trace.words(item[1]) : [];
      if (kind === 'event') {
        begin(true);
        open.document = words[2].slice(1);
      } else if (!open || open.isError && kind === 'resize') begin(false);
      if (kind === 'round') {
        Object.assign(open, { document: words[1], depth: words[2], ended: item[1] });
        open = null;
      } else open.items.push(item);
    }
    return rounds;
  }

  // ---- what the page shows ----

  told(step, chosen) {
    this.places = new Map(step.log.map((item, place) => [item, place]));
    const parts = this.phases(step.log).map(phase => phase.title === LOOP ? this.loop(phase, chosen) : this.phase(phase, chosen));
    const isQuiet = !parts.length && step.kind === 'tick' && !step.linesNotKept;
    return html`${this.sinceBefore(step, chosen)}${parts}${isQuiet && html`<p class="after">${NOTHING}</p>`}${
      step.notKept && html`<p class="after">${counted(step.notKept, 'command')} of handlers in this tick are left out.</p>`}`;
  }
  // What went wrong in a tick, a sentence for each.
  troubles(step) {
    const lines = this.trace.linesOf(step).filter(line => this.trace.isTroubleLine(line)), others = lines.length - MOST_TROUBLES;
    return html`${lines.slice(0, MOST_TROUBLES).map(line => html`<li>${this.sentences.trouble(line)}</li>`)}${
      others > 0 && html`<li>and ${number(others)} more below</li>`}`;
  }
  phase({ title, items }, chosen) {
    return html`<section class="phase"><h3>${title || 'In the tick'}</h3><ol class="items">${this.some(items, chosen)}</ol></section>`;
  }
  loop({ document, rounds }, chosen) {
    let count = 0;
    const many = rounds.filter(round => !round.isError).length;
    return html`<section class="phase"><h3>${LOOP}${document && ` of ${document}`} <span class="count">${counted(many, 'round')}</span></h3>${
      rounds.map(round => round.isError ? html`<div class="round error"><ol class="items">${this.some(round.items, chosen)}</ol></div>`
        : this.round(round, ++count, chosen))}</section>`;
  }
  round({ items, depth, ended }, count, chosen) {
    return html`<div class="round"><h4 ${this.moment(items[0], 0)}>Round ${count}</h4><ol class="items">${this.some(items, chosen)}</ol>${
      ended < 0 ? html`<p class="after">The loop was cut short here: its document ended, a limit was met, or the run was stopped.</p>`
        : html`<p class="after" ${this.mark(ended, chosen)}>The least depth delivered is ${depth}: another round delivers only what is deeper. <code class="trace">${
          this.trace.text(ended)}</code></p>`}</div>`;
  }
  // The mark of an item at which the page can be drawn: as it begins, or for 1 as the command has run.
  moment(item, after) {
    const place = this.places && this.places.get(item);
    return place === undefined ? '' : html`data-moment="${place + after}" tabindex="-1"`;
  }
  mark(line, chosen) {
    return html`data-line="${line}" tabindex="${line === chosen ? 0 : -1}"${line === chosen && html` aria-current="true"`}`;
  }
  // The first items of a list, up to the chosen one at least; then a button for all, and those of the others that went wrong.
  some(items, chosen) {
    const has = item => item.call ? item.items.some(has) : item[0] === 'line' && item[1] === chosen;
    const most = this.all ? Infinity : Math.max(MOST_SHOWN, 1 + items.findIndex(has)), others = items.slice(most);
    const wrong = others.filter(item => item[0] === 'line' && this.trace.isTroubleLine(item[1])).slice(-MOST_TROUBLES);
    return html`${items.slice(0, most).map((item, place) => this.item(item, chosen, items[place - 1]))}${
      others.length > 0 && html`<li class="others"><button type="button" data-all="1">Show ${number(others.length)} more</button></li>`}${
      wrong.map(item => this.item(item, chosen))}`;
  }
  item(item, chosen, before) {
    if (item.call) return this.call(item, chosen);
    if (item[0] === 'line') return this.line(item[1], chosen, Boolean(before) && before[0] === 'command' && before[1] === this.trace.ranAt(item[1]));
    if (item[0] === 'entry') return html`<li class="entry" ${this.moment(item, 0)}>for ${this.sentences.thing(item[1])}</li>`;
    return this.sentences.command(item, this.moment(item, 1));
  }
  call({ call, line, items }, chosen) {
    const isEmpty = !items.some(one => one[0] === 'command');
    return html`<li class="call"><div class="said">Handler ${bold(call)}, ${this.sentences.ref(line)}${isEmpty && ', does nothing'}</div>${
      items.length > 0 && html`<ol class="commands">${this.some(items, chosen)}</ol>`}</li>`;
  }
  // A line of the trace; `isOwn` says that the command that wrote it is shown right above it.
  line(line, chosen, isOwn) {
    const left = isOwn ? ['threw', 'met it', 'wrote it'] : ['threw', 'met it'], explanation = this.trace.explanation(line);
    const causes = this.trace.causes(line).filter(([, said]) => !left.includes(said));
    return html`<li class="line" ${this.mark(line, chosen)}>${this.said(line, isOwn)}${causes.length > 0 && this.sentences.causes(causes)}<code class="trace">${
      this.trace.text(line)}</code>${explanation.length > 0 && this.why(explanation, this.trace.isTroubleLine(line))}${this.inEngine(line)}</li>`;
  }
  // What an engine does differently at a line, if one was asked for.
  inEngine(line) {
    if (!this.trace.data.as) return '';
    const { name } = this.trace.data.as, one = this.trace.differs(line), known = { changed: 'another line', missing: 'no such line', moved: 'at another place' };
    const part = (said, explanation) => html`<details class="why engine"><summary>${said}</summary><div class="explained">${explained(explanation)}</div></details>`;
    return html`${one && part(html`In ${bold(name)}: ${known[one[0]]} ${one[0] === 'changed' && html`<code class="trace">${one[1]}</code>`}`, one[2])}${
      this.trace.added(line).map(([text, explanation]) => part(html`Only in ${bold(name)}: <code class="trace">${text}</code>`, explanation))}`;
  }
  said(line, isOwn) {
    const kind = isOwn ? this.trace.kind(line) : '';
    if (kind === 'say') return '';
    return html`<div class="said">${kind === 'throw' ? html`throws ${this.sentences.kindOfThrow(line)}` : this.sentences.sentence(line)}</div>`;
  }
  why(explanation, isOpen) {
    return html`<details class="why"${isOpen && html` open`}><summary>Why</summary><div class="explained">${explained(explanation)}</div></details>`;
  }

  // ---- commands outside handlers ----

  sinceBefore(step, chosen) {
    const [first, last, count] = step.commands;
    if (!count) return '';
    const titles = { tick: 'Since the previous tick', start: 'Before the first tick', end: this.trace.data.ticks ? 'After the last tick' : 'In the script' };
    const isShort = count <= MOST_OUTSIDE, items = isShort ? this.withCommands(step.since, first, last) : step.since;
    return html`<section class="phase"><h3>${titles[step.kind]} <span class="count">${counted(count, 'command')}</span></h3>${
      !isShort && html`<p class="after">From ${this.sentences.ref(first)} to ${this.sentences.ref(last)}${items.length > 0 && '; among them'}</p>`}${
      items.length > 0 && html`<ol class="items outside">${this.some(items, chosen)}</ol>`}</section>`;
  }
  // The log with all commands of these lines, each before its effects.
  withCommands(log, first, last) {
    const of = line => log.filter(item => item[0] === 'line' && this.trace.ranAt(item[1]) === line);
    const sizes = line => log.filter(item => item[0] === 'command' && item[1] === line).flatMap(item => item[5]);
    return this.outside(first, last).flatMap(line => [['command', line, 0, -1, -1, sizes(line)], ...of(line)]);
  }
  // The lines of commands outside handlers.
  outside(first, last) {
    const found = [];
    let open = 0;
    for (let line = first; line <= last; line++) {
      const begin = this.trace.command(line).split(' ')[0];
      if (begin === 'handler' || open && (begin === 'each' || begin === 'when')) open++;
      else if (begin === 'end' && open) open--;
      else if (begin && begin !== 'end' && !open) found.push(line);
    }
    return found;
  }
}
