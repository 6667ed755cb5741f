'use strict';
// Runs the script in the reader's own browser, with the parts of tools/browser, and shows both traces side by side.

const ENGINE = /Firefox\//.test(navigator.userAgent) ? 'firefox' : /Chrom(e|ium)\//.test(navigator.userAgent) ? 'chromium' : 'webkit';
const MOST_COMPARED = 20000;

class Beside {
  constructor(ask, classes, ended) { Object.assign(this, { ask, classes, ended, isBusy: false }); }
  async run(bytes, lines) {
    if (this.isBusy) return;
    this.isBusy = true;
    at('run-browser').disabled = true;
    try {
      await this.compare(bytes, lines);
    } catch (fault) {
      this.say(`The run in this browser failed: ${fault.message || fault}.`);
    } finally {
      this.isBusy = false;
      this.ended();
    }
  }
  say(sentence) { at('browser-said').textContent = sentence; }
  async compare(bytes, lines) {
    fill('beside', '');
    if (lines.length > MOST_COMPARED) return this.say(`The trace has more than ${number(MOST_COMPARED)} lines, which is too long to compare here.`);
    this.say('Running \u2026');
    const answer = await this.ask('plan', { bytes });
    const plan = answer && answer.plan;
    if (!plan) return this.say('The script could not be read, so nothing was run.');
    if (plan.refused) return this.say(`This browser isn\u2019t asked: ${plan.refused}.`);
    const [failed, why, told] = await observersAnswer(plan);
    if (failed) this.say(failed === 'failed' ? `The run in this browser failed: ${why}.` : `This browser can\u2019t show the script: ${why}.`);
    const rows = observersBeside(lines, told), differ = rows.filter(row => row[2] !== ' ').length;
    if (!failed) this.say(differ ? `This browser differs from the rules in ${number(differ)} of ${counted(rows.length, 'line')}.` : 'This browser gives the trace of the rules.');
    fill('beside', html`${this.table(rows)}`);
    if (!failed && differ) await this.classify(bytes, told);
  }
  table(rows) {
    const kinds = { ' ': 'same', '!': 'other', '-': 'rules', '+': 'browser' }, said = { '!': 'different', '-': 'only by the rules', '+': 'only in this browser' };
    return html`<table><caption class="word">Marks: ! different lines, - only by the rules, + only in this browser.</caption>
      <thead><tr><th scope="col">by the rules</th><th scope="col"><span aria-hidden="true">\u00b1</span></th><th scope="col">this browser</th></tr></thead><tbody>${
      rows.map(([one, other, mark]) => html`<tr class="${kinds[mark]}"><td>${one}</td><td>${mark !== ' ' && html`<abbr title="${said[mark]}">${mark}</abbr>`}</td><td>${other}</td></tr>`)}</tbody></table>`;
  }
  // Which known differences of this engine give exactly this trace.
  async classify(bytes, told) {
    const answer = await this.ask('classes', { bytes, engine: ENGINE, told });
    const names = answer && answer.names;
    const note = document.createElement('div');
    note.innerHTML = shown(this.classNote(names));
    at('beside').prepend(note);
  }
  classNote(names) {
    if (!names) return html`<p>The model of this engine (${ENGINE}) doesn\u2019t give this trace, so the difference is in none of the known classes; <code>docs/BROWSERS.md</code> says how to report it.</p>`;
    return html`<h3>Why it differs</h3><dl>${names.map(name => html`<dt><code>${name}</code></dt><dd>${this.classSaid(this.classes[name])}</dd>`)}</dl>`;
  }
  classSaid(found) { return found ? html`By the rules: ${found[0]}. In this engine: ${found[1]}.` : 'A class of docs/BROWSERS.md.'; }
}
