'use strict';
// The editor: CodeMirror if the page was built with it, otherwise a plain field with line numbers. Both have the same calls.

const MOST_COLOURED = 400000;          // bytes of a text that is coloured

class Editor {
  static in(holder, words, ask) {
    return window.CodeMirror ? new RichEditor(holder, words, ask) : new PlainEditor(holder);
  }
}
function modeOf(words) {
  const sets = Object.fromEntries(Object.entries(words).map(([version, found]) => [version, {
    first: new Set(found.first), properties: new Set(found.properties), words: new Set(found.words) }]));
  const styleOf = (word, state) => {
    const known = sets[state.version];
    if (state.place === 0) return known.first.has(word) ? 'first' : 'unknown';
    if (word.startsWith('$') || word.startsWith('@')) return 'target';
    if (/^[-(]?[0-9]/.test(word)) return 'value';
    if (state.first === 'set' && state.place === 2) return known.properties.has(word) ? 'property' : 'unknown';
    return state.place > 1 && known.words.has(word) || state.first === 'when' && known.words.has(word) ? 'property' : 'name';
  };
  return {
    startState: () => ({ version: 1, place: 0, first: '' }),
    copyState: state => ({ ...state }),
    token(stream, state) {
      if (stream.sol()) Object.assign(state, { place: 0, first: '' });
      if (stream.eatSpace()) return null;
      if (stream.peek() === '#') { stream.skipToEnd(); return 'note'; }
      const word = stream.match(/[^\s]+/)[0], style = styleOf(word, state);
      if (state.place === 0) state.first = word;
      if (state.first === 'script' && state.place === 1 && sets[word]) state.version = Number(word);
      state.place++;
      return style;
    },
  };
}

class RichEditor {
  constructor(holder, words, ask) {
    CodeMirror.defineMode('script', () => modeOf(words));
    this.ask = ask;
    this.marks = [];
    this.gutters = 0;                  // whether there is a sign beside a line
    this.marked = '';
    this.changed = () => {};
    this.editor = CodeMirror(holder, {
      mode: 'script', lineNumbers: true, lineSeparator: '\n', lineWrapping: true, inputStyle: 'contenteditable', undoDepth: 2000,
      screenReaderLabel: 'Script', spellcheck: false, gutters: ['gutter-marks', 'CodeMirror-linenumbers'],
      extraKeys: { Tab: false, 'Shift-Tab': false, 'Ctrl-Space': () => this.complete(true), 'Cmd-Space': () => this.complete(true) },
    });
    // While its list is renewed, the list of words takes Enter as a choice: a line break that is typed quickly would be lost.
    const add = this.editor.addKeyMap;
    this.editor.addKeyMap = (map, isLast) => {
      if (Object.keys(map).join() === 'Enter') delete map.Enter;
      add.call(this.editor, map, isLast);
    };
    const field = this.editor.getInputField();
    field.setAttribute('role', 'textbox');
    field.setAttribute('aria-multiline', 'true');
    field.setAttribute('aria-label', 'Script');
    this.editor.on('change', (editor, change) => {
      if (change.origin !== 'setValue') this.changed();
    });
    this.editor.on('inputRead', (editor, change) => {
      if (/^[A-Za-z$@]$/.test(change.text.join('\n')) && !editor.state.completionActive) this.complete(false);
    });
  }
  get text() { return this.editor.getValue(); }
  // Another script: what was typed before can't be undone into it.
  set text(text) {
    this.editor.setOption('mode', text.length > MOST_COLOURED ? null : 'script');
    this.marked = '';
    this.editor.setValue(text);
    this.editor.clearHistory();
  }
  // The text after a change that can be undone.
  replace(text) { this.editor.operation(() => this.editor.replaceRange(text, { line: 0, ch: 0 }, { line: this.editor.lastLine() })); }
  focus() { this.editor.focus(); }
  undo() { this.editor.undo(); }
  redo() { this.editor.redo(); }
  refresh() { this.editor.refresh(); }
  get history() { return this.editor.historySize(); }
  get position() { const { line, ch } = this.editor.getCursor(); return { line: line + 1, column: ch }; }
  goTo(line, column = 1) {
    this.editor.focus();
    this.editor.setCursor({ line: line - 1, ch: column - 1 });
    this.editor.scrollIntoView(null, 80);
    const handle = this.editor.addLineClass(Math.min(line, this.editor.lineCount()) - 1, 'background', 'running');
    setTimeout(() => this.editor.removeLineClass(handle, 'background', 'running'), 1500);
  }
  clear() {
    if (!this.marks.length && !this.gutters) return;
    this.gutters = 0;
    this.editor.operation(() => {
      for (const mark of this.marks) mark.clear();
      this.editor.clearGutter('gutter-marks');
    });
    this.marks = [];
  }
  // { fault: { line, column, length, sentence }, blamed: [line, ..], trouble: Map of line -> sentence }
  show({ fault, blamed, trouble }) {
    const marks = JSON.stringify([fault, blamed, [...trouble]]);
    if (marks === this.marked && (fault || blamed.length + trouble.size === 0)) return;
    this.marked = marks;
    this.clear();
    this.editor.operation(() => {
      for (const [line, sentence] of trouble) this.gutter(line, '\u26a0', 'odd', sentence);
      for (const line of blamed) this.underline(line, 1, 0, 'blamed', 'A command that can cause a loop error');
      if (!fault) return;
      const title = fault.sentence.replace(/`/g, '');
      this.underline(fault.line, fault.column, fault.length, 'fault', title);
      this.gutter(fault.line, '\u2717', 'bad', title);
      const note = document.createElement('div');
      note.className = 'told';
      note.innerHTML = shown(quoted(fault.sentence));
      const at = Math.min(fault.line, this.editor.lineCount()) - 1;
      this.marks.push(this.editor.addLineWidget(at, note, { above: false }));
    });
  }
  underline(line, column, length, className, title) {
    const text = this.editor.getLine(line - 1);
    if (text === undefined) return;
    const first = length ? column - 1 : text.length - text.trimStart().length, last = length ? first + length : text.length;
    const from = Math.min(first, Math.max(0, text.length - 1));
    this.marks.push(this.editor.markText({ line: line - 1, ch: from }, { line: line - 1, ch: Math.max(last, from + 1) }, { className, title }));
  }
  gutter(line, sign, className, title) {
    if (line < 1 || line > this.editor.lineCount()) return;
    const mark = document.createElement('span');
    Object.assign(mark, { className: `gutter-mark ${className}`, textContent: sign, title });
    this.gutters = 1;
    this.editor.setGutterMarker(line - 1, 'gutter-marks', mark);
  }
  // Asked for, or while a word is being typed; then a word that is whole already isn't offered.
  complete(isAsked) {
    const hint = async () => {
      const { line, ch } = this.editor.getCursor(), found = await this.ask(this.text, line + 1, ch), now = this.editor.getCursor();
      if (!found || now.line !== line || now.ch !== ch) return null;
      const [start, ...options] = found, word = this.editor.getLine(line).slice(start, ch);
      if (!options.length || !isAsked && options.some(([text]) => text === word)) return null;
      return { from: { line, ch: start }, to: { line, ch }, list: options.map(([text, said]) => ({ text, said, render: shownOption })) };
    };
    let moved = false;
    this.editor.showHint({ hint, completeSingle: false, customKeys: {
      Up: (editor, list) => { moved = true; list.moveFocus(-1); }, Down: (editor, list) => { moved = true; list.moveFocus(1); },
      PageUp: (editor, list) => list.moveFocus(1 - list.menuSize(), true), PageDown: (editor, list) => list.moveFocus(list.menuSize() - 1, true),
      Enter: (editor, list) => { if (moved || isAsked) return list.pick(); list.close(); return CodeMirror.Pass; },
      Tab: (editor, list) => list.pick(), Esc: (editor, list) => list.close() } });
  }
}
function shownOption(item, data, option) {
  const said = document.createElement('small');
  said.textContent = option.said && `  ${option.said}`;
  item.append(option.text, said);
}

// A field would make a line feed of a carriage return, which is a letter of a script: there it is shown as this sign.
const RETURN = '\u240d';
class PlainEditor {
  constructor(holder) {
    const outer = document.createElement('div');
    outer.className = 'plain';
    outer.innerHTML = '<div class="numbers" aria-hidden="true"></div><textarea aria-label="Script" spellcheck="false" autocapitalize="off" wrap="off"></textarea>';
    holder.append(outer);
    [this.numbers, this.field] = outer.children;
    this.changed = () => {};
    this.field.addEventListener('input', () => { this.number(); this.changed(); });
    this.field.addEventListener('scroll', () => { this.numbers.scrollTop = this.field.scrollTop; });
    this.wrong = 0;
  }
  number() {
    const count = this.field.value.split('\n').length;
    this.numbers.textContent = Array.from({ length: count }, (_, at) => at + 1 === this.wrong ? `\u2717 ${at + 1}` : at + 1).join('\n');
  }
  get text() { return this.field.value.replaceAll(RETURN, '\r'); }
  set text(text) { this.field.value = text.replaceAll('\r', RETURN); this.number(); }
  replace(text) {
    const signed = text.replaceAll('\r', RETURN);
    this.field.select();
    if (!document.execCommand('insertText', false, signed)) this.field.value = signed;
    this.number();
    this.changed();
  }
  focus() { this.field.focus(); }
  undo() { this.field.focus(); document.execCommand('undo'); }
  redo() { this.field.focus(); document.execCommand('redo'); }
  refresh() {}
  get history() { return { undo: 1, redo: 1 }; }
  get position() {
    const before = this.field.value.slice(0, this.field.selectionStart).split('\n');
    return { line: before.length, column: before[before.length - 1].length };
  }
  goTo(line, column = 1) {
    const before = this.field.value.split('\n').slice(0, line - 1).reduce((length, one) => length + one.length + 1, 0);
    this.field.focus();
    this.field.setSelectionRange(before + column - 1, before + column - 1);
  }
  show({ fault }) { this.wrong = fault ? fault.line : 0; this.number(); }
}
