'use strict';
// Gives to others: `Trace`, the lines of the trace by number, and summaries of those of a tick.

const COUNTED = { round: 'rounds', resize: 'sizes', intersect: 'meetings', throw: 'throws', limit: 'limits', timer: 'callbacks',
  frame: 'callbacks', task: 'callbacks', syntax: 'faults', say: 'words', read: 'words', take: 'words' };

class Trace {
  constructor(data) { this.data = data; }

  text(line) { return this.data.lines[line][0]; }
  words(line) { return this.text(line).split(' '); }
  kind(line) { return this.words(line)[0]; }
  ranAt(line) { return this.data.lines[line][1]; }
  elements(line) { return this.data.lines[line][2] || []; }
  causes(line) { return this.data.lines[line][3] || []; }
  more(line) { return this.data.lines[line][4] || null; }
  explanation(line) { return this.data.lines[line][5] || []; }
  // What was found for a line `intersect`: the moment, the root's rectangle with its margin and without, the clips, and what is left.
  meeting(line) {
    const more = line < 0 ? null : this.more(line);
    if (!more || more[0] !== 'met') return null;
    const [, moment, root, own, clips, cut] = more;
    return { moment, root, own, clips, cut };
  }
  // What an engine writes in place of a line, and what only it writes after it.
  differs(line) { return this.data.as && this.data.as.lines[line]; }
  added(line) { return this.data.as && this.data.as.added[line] || []; }
  differences(step) { return this.linesOf(step).reduce((all, line) => all + (this.differs(line) ? 1 : 0) + this.added(line).length, 0); }
  isError(line) { return this.text(line).startsWith('event error'); }
  isTroubleLine(line) { return this.isError(line) || ['throw', 'limit', 'syntax'].includes(this.kind(line)); }
  name(element) { return this.data.elements[element][0]; }
  // A line of the script, without its comment and with single spaces.
  command(line) {
    const script = this.data.script, text = (Array.isArray(script) ? script[line - 1] : script[line]) || '';
    return text.trim().replace(/\s+/g, ' ').replace(/(^| )#.*/, '');
  }
  linesOf(step) { return [...step.since, ...step.log].filter(item => item[0] === 'line').map(item => item[1]); }

  counts(step) {
    if (step.counts) return step.counts;
    const counts = { rounds: 0, sizes: 0, errors: 0, events: 0, meetings: 0, throws: 0, limits: 0, callbacks: 0, faults: 0, words: 0 };
    for (const line of this.linesOf(step)) {
      const kind = this.kind(line), key = kind === 'event' ? (this.isError(line) ? 'errors' : 'events') : COUNTED[kind];
      if (key) counts[key]++;
    }
    return step.counts = counts;
  }
  isTrouble(step) {
    const { errors, throws, limits, faults } = this.counts(step);
    return errors + throws + limits + faults > 0;
  }
  // [class, words] for a tick's button, the most notable first.
  badges(step) {
    const { rounds, sizes, errors, events, meetings, throws, limits, callbacks, faults } = this.counts(step);
    const found = [
      faults && ['bad', 'not a script'], limits && ['bad', 'limit'], errors && ['bad', errors > 1 ? `${errors} loop errors` : 'loop error'],
      throws && ['odd', counted(throws, 'exception')], rounds && ['', counted(rounds, 'round')],
      sizes && !rounds && ['', counted(sizes, 'size')], events && ['', counted(events, 'event')],
      this.differences(step) && ['odd', `${this.data.as.name} differs`], meetings && ['', counted(meetings, 'intersection')], callbacks && ['', counted(callbacks, 'callback')],
      step.linesNotKept && ['', 'lines left out'],
    ].filter(Boolean);
    return found.length ? found : [['quiet', step.kind === 'tick' ? 'nothing' : counted(step.commands[2], 'command')]];
  }
  summary(step) {
    const { rounds, sizes, errors, events, meetings, throws, callbacks, words } = this.counts(step);
    const left = step.linesNotKept;
    const told = [
      events && counted(events, 'event'), callbacks && counted(callbacks, 'callback'),
      sizes && `${counted(sizes, 'size')} in ${counted(rounds, 'round')} of the resize loop`, errors && counted(errors, 'loop error'),
      meetings && counted(meetings, 'intersection'), throws && counted(throws, 'exception'),
      words && `${counted(words, 'line')} that the script wrote`,
      left && `${counted(left, 'line')} of the trace left out here`,
    ].filter(Boolean);
    return told.length ? `Reported: ${listed(told)}.` : 'Nothing was reported.';
  }
}
