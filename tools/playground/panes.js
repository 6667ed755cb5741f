'use strict';
// The views of a run: what happens (the viewer, in a frame), and the trace with what differs from the run before.

const MOST_TRACE_LINES = 5000;         // shown; the whole trace can be saved
const at = id => document.getElementById(id);
const fill = (id, content) => { at(id).innerHTML = shown(content); };

class Panes {
  // `answer` asks the program for what is written with some arguments.
  constructor(text, toScript, answer) {
    this.names = ['view', 'trace', 'browser'];
    this.frame = at('view');
    this.waiting = null;
    this.frame.addEventListener('load', () => {
      this.inner = this.frame.contentWindow;
      this.connect(toScript, answer);
    });
    this.frame.srcdoc = text;
    for (const name of this.names) at(`tab-${name}`).addEventListener('click', () => this.choose(name));
    document.querySelector('[role="tablist"]').addEventListener('keydown', event => this.key(event));
  }
  connect(toScript, answer) {
    const calls = this.inner.playground;
    Object.assign(calls.host, { toScript, answer });
    this.calls = calls;
    if (this.waiting) calls.showRun(...this.waiting);
    new ResizeObserver(() => this.fit()).observe(this.inner.document.body);
    addEventListener('resize', () => this.fit());
    this.fit();
  }
  // On a narrow screen the frame is as high as what it shows, so that there is one scroll bar.
  fit() {
    const isNarrow = matchMedia('(max-width: 58rem)').matches || this.isPrinting;
    const height = isNarrow ? `${Math.max(400, this.inner.document.body.scrollHeight + 2)}px` : '';
    if (this.frame.style.height !== height) this.frame.style.height = height;
  }
  choose(name) {
    for (const one of this.names) {
      const isChosen = one === name;
      at(`tab-${one}`).setAttribute('aria-selected', isChosen);
      at(`tab-${one}`).tabIndex = isChosen ? 0 : -1;
      at(`pane-${one}`).hidden = !isChosen;
    }
    this.chosen = name;
    if (name === 'trace' && this.lines) this.drawTrace();
  }
  key(event) {
    const by = { ArrowRight: 1, ArrowLeft: -1 }[event.key], here = this.names.findIndex(name => at(`tab-${name}`) === document.activeElement);
    if (here < 0 || !by && event.key !== 'Home' && event.key !== 'End') return;
    const next = event.key === 'Home' ? 0 : event.key === 'End' ? this.names.length - 1 : (here + by + this.names.length) % this.names.length;
    this.choose(this.names[next]);
    at(`tab-${this.names[next]}`).focus();
    event.preventDefault();
  }
  // A text that is no script leaves the picture of the run before, so that it doesn't go away while a line is being typed.
  showRun(data, isOther, isFault) {
    this.data = data;
    const isKept = isFault && !isOther && this.hasPicture;
    document.documentElement.classList.toggle('old-picture', isKept);
    if (isKept) return;
    const isNew = isOther || !this.hasPicture;
    this.hasPicture = !isFault;
    if (!this.calls) this.waiting = [data, isNew];
    else this.calls.showRun(data, isNew);
    if (this.calls) this.fit();
  }
  // Adds to the run that is shown what is said about it.
  explain(said) {
    const missing = ['', 0, [], [], null];
    for (const [place, explanation] of said.explanations) {
      const row = this.data.lines[place];
      while (row.length < missing.length) row.push(missing[row.length]);
      row[5] = explanation;
    }
    Object.assign(this.data, { notes: said.notes, checked: said.checked });
    if (this.calls && !document.documentElement.classList.contains('old-picture')) this.calls.explain(this.data);
  }
  // ---- the trace ----

  // The run before is the last one of a script.
  showTrace(lines, whole, isOther, isFault) {
    Object.assign(this, { before: isOther || !this.good ? null : this.good, lines, whole, data: null });
    if (!isFault) this.good = lines;
    if (this.chosen === 'trace') this.drawTrace();
  }
  drawTrace() {
    const rows = this.rows().slice(0, MOST_TRACE_LINES), left = this.lines.length - MOST_TRACE_LINES;
    let place = 0;
    fill('trace', rows.map(([text, mark]) => {
      if (mark !== 'gone') place++;
      return this.row(text, mark, mark === 'gone' ? 0 : place);
    }));
    const news = rows.filter(row => row[1] === 'new').length, gone = rows.filter(row => row[1] === 'gone').length;
    const size = `${number(this.lines.length)} ${this.lines.length === 1 ? 'line' : 'lines'}${this.whole.size > this.whole.shown ? ' of a longer trace' : ''}`;
    const differs = this.before === null ? '' : news + gone === 0 ? '; the same as in the run before' : `; against the run before, ${news} new and ${gone} gone`;
    at('trace-said').textContent = `${size}${differs}. Choose a line to see the command that wrote it.${left > 0 ? ` The first ${number(MOST_TRACE_LINES)} are shown; the whole trace can be saved.` : ''}`;
  }
  rows() {
    if (this.before === null || this.before.length > 20000 || this.lines.length > 20000) return this.lines.map(text => [text, '']);
    return observersBeside(this.before, this.lines).flatMap(([one, other, mark]) => mark === ' ' ? [[other, '']]
      : mark === '!' ? [[one, 'gone'], [other, 'new']] : mark === '-' ? [[one, 'gone']] : [[other, 'new']]);
  }
  row(text, mark, number) {
    const kind = text.split(' ')[0], isTrouble = ['throw', 'limit', 'syntax'].includes(kind) || text.startsWith('event error');
    const said = { new: ['+', 'new: '], gone: ['\u2212', 'gone: '] }[mark] || ['', ''];
    return html`<li class="${mark} ${kind === 'tick' ? 'tick' : ''} ${isTrouble ? 'trouble' : ''}"><span class="number" aria-hidden="true">${number || ''}</span><span class="mark"><span aria-hidden="true">${said[0]}</span></span>${
      number > 0 ? html`<button type="button" class="trace" data-number="${number}"${said[1] && html` aria-label="${said[1] + text}"`}>${text}</button>` : html`<span class="trace"><del>${text}</del></span>`}</li>`;
  }
  // The line of the script whose command wrote this line of the trace, 0 if none is known.
  lineOf(number) {
    const line = this.data && this.data.lines[number - 1 - (this.data.firstLine || 0)];
    return line && line[1] || 0;
  }
}
