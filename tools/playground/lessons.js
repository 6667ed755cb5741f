'use strict';
// The lessons: a task, and what its solution shows in the trace.

// Whether a line has these words: `*` stands for any word, `..` at the end for any others.
function fits(line, form) {
  const words = line.split(' '), wanted = form.split(' '), isOpen = wanted[wanted.length - 1] === '..';
  if (isOpen) wanted.pop();
  return (isOpen ? words.length >= wanted.length : words.length === wanted.length) && wanted.every((word, place) => word === '*' || word === words[place]);
}
// The lines of the K-th tick, or for 0 the whole trace.
function linesOfTick(lines, tick) {
  if (!tick) return lines;
  const places = lines.flatMap((line, place) => line.startsWith('tick ') ? [place] : []);
  return places.length < tick ? [] : lines.slice(places[tick - 1], places[tick]);
}
function holdsIn(check, lines, text) {
  const all = check.in === 'script' ? text.split('\n').map(line => line.replace(/(^| )#.*/, '').trim().replace(/\s+/g, ' ')) : linesOfTick(lines, check.tick);
  const count = all.filter(line => fits(line, check.form)).length;
  return check.count === null ? count > 0 : count === check.count;
}

class Lessons {
  constructor(all, editor) { Object.assign(this, { all, editor, place: -1, done: new Set(JSON.parse(kept.read('done') || '[]')) }); }
  get lesson() { return this.all[this.place] || null; }
  open(place) {
    this.place = place;
    this.states = this.lesson.checks.map(() => false);
    this.draw();
  }
  close() {
    this.place = -1;
    at('lesson').hidden = true;
  }
  // Checks a finished run of the script.
  check(lines, text) {
    if (!this.lesson) return;
    const states = this.lesson.checks.map(check => holdsIn(check, lines, text));
    if (String(states) === String(this.states)) return;
    this.states = states;
    if (states.every(Boolean) && !this.done.has(this.lesson.name)) {
      this.done.add(this.lesson.name);
      kept.write('done', JSON.stringify([...this.done]));
    }
    const focus = document.activeElement && document.activeElement.dataset.lesson;
    this.draw();
    if (focus) { const again = at('lesson').querySelector(`[data-lesson="${focus}"]`); if (again) again.focus(); }
  }
  draw() {
    const { title, about, task, checks } = this.lesson, isDone = this.states.every(Boolean), isLast = this.place === this.all.length - 1;
    at('lesson').hidden = false;
    fill('lesson', html`<div class="bar"><h2 id="lesson-title">Lesson ${this.place + 1} of ${this.all.length}: ${title}</h2>
      <button type="button" data-lesson="close" aria-label="Close the lesson">\u00d7</button></div>
      <div class="about" tabindex="0" role="group" aria-label="What it is about">${about.map(paragraph => html`<p>${quoted(paragraph)}</p>`)}</div>
      <p class="task"><b>Task:</b> ${task.map(paragraph => quoted(paragraph))}</p>
      <ul class="steps" aria-live="polite">${checks.map((check, place) => html`<li class="${this.states[place] ? 'done' : 'open'}"><span aria-hidden="true">${this.states[place] ? '\u2713' : '\u25cb'}</span><span><span class="hidden">${this.states[place] ? 'done: ' : 'to do: '}</span>${quoted(check.said)}</span></li>`)}</ul>
      ${isDone && html`<p class="ended" role="status">Done.${isLast ? ' This was the last lesson.' : ''}</p>`}
      <div class="tools">${!isLast && html`<button type="button" data-lesson="next" class="${isDone && 'next'}">${isDone ? 'Next lesson' : 'Skip to the next'}</button>`}
      ${this.place > 0 && html`<button type="button" data-lesson="previous">Previous</button>`}
      <button type="button" data-lesson="again">Begin again</button><button type="button" data-lesson="solve">Show a solution</button></div>`);
  }
}
