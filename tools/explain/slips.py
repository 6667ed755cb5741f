"""All faults of a text: after one, the reader goes on at the next line. The first is the one that the program gives.

Gives to others: `all_faults(text)`, a list of the reference's Fault; `code(fault)`, a word for its kind; `fix(fault, script)`, the
corrected line, or None; `as_object(fault, script, message)` for JSON.
"""
import difflib
import re

from reference import available, grammar, lexer
from reference.lexer import Fault, TextLimit

from . import foreign, hints

MOST_FAULTS, MOST_LINES = 20, 20000
MOST_WORDS = 3                    # that are changed in one line
_OPENERS = ('handler', 'each', 'when')
_MEANT = {'if': 'block', 'for': 'block', 'foreach': 'block', 'while': 'block', 'unless': 'block', 'function': 'handler'}


class _Onward(grammar._Reader):
    """A reader that goes on after a fault, as if the line were what it seems to be."""

    def __init__(self, text):
        grammar._Reader.__init__(self, available.LANGUAGE)
        self.faults, self.closed_after = [], _closed_after(text)

    def take_line(self, number, line, ended):
        """Reads one line; what is wrong with it is kept."""
        try:
            lexer.check_bytes(number, line, ended)
            words = grammar.Words(number, line)
            if words.next() is None:
                return
            if not self.script.version:
                self._begin(words)
            else:
                self.line(words)
        except Fault as fault:
            self.faults.append(fault)
            self._recover(number, line, fault)

    def _begin(self, words):
        """The first line with words; without it, the version is assumed to be 1."""
        known = words.words[0][1] == b'script'
        try:
            self.first_line(words)
        except Fault:
            self.script.version = self.script.version or 1
            if known:
                raise
            self.faults.append(words.fault(grammar.Unfit(words.next(), grammar.forms.keywords('script'))))
            self.line(grammar.Words(words.number, words.line))

    def _recover(self, number, line, fault):
        """Opens or closes what the line was meant to open or close."""
        if isinstance(fault.cause, lexer.BadByte) and not self.script.version:
            self.script.version = 1
        if isinstance(fault.cause, grammar.Misplaced) and self.open and not line.split()[0] == b'end':
            is_handler = line.split()[0] == b'handler'
            if self.closed_after.get(number, 0) >= len(self.open) + is_handler:    # each of them has its `end` further on
                self.open += [grammar._Open('handler', number, [])] if is_handler else []
                return
            self.open = []
            try:
                self.line(grammar.Words(number, line))
            except Fault as other:
                self.faults.append(other)
            return
        first = re.match(rb'\s*([A-Za-z-]*|\})', line).group(1).decode('ascii').lower()
        meant = _MEANT.get(first) or next(iter(difflib.get_close_matches(first, _OPENERS, 1, 0.75)), None)
        if isinstance(fault.cause, grammar.Misplaced):
            return
        if first in ('}', '') and line.strip().startswith(b'}') or first != 'end' and difflib.get_close_matches(first, ['end'], 1, 0.8) or (
                first == 'end'):
            self.open = self.open[:-1]
        elif meant:
            self.open.append(grammar._Open('handler' if meant == 'handler' else 'block', number, []))


def _closed_after(text):
    """For each line, by how many the lines `end` after it exceed those that open something."""
    found, count = {}, 0
    for number, line, _ in reversed(list(lexer.lines_of(text))):
        found[number] = count
        first = line.split()[:1]
        count += (first == [b'end']) - (first in ([b'handler'], [b'each'], [b'when']))
    return found


def all_faults(text):
    """The faults of a text in the order of their lines, at most MOST_FAULTS + 1; none of a text with more than MOST_LINES."""
    if text.count(b'\n') > MOST_LINES:
        return []
    reader = _Onward(text)
    try:
        for number, line, ended in lexer.lines_of(text):
            reader.take_line(number, line, ended)
            if len(reader.faults) > MOST_FAULTS or b'\x00' in line:
                return reader.faults
    except TextLimit:
        return reader.faults
    if not reader.script.version:
        reader.faults.append(Fault(lexer.line_count(text) + 1, 1, grammar.NoFirstLine()))
    elif reader.open:
        reader.faults.append(Fault(lexer.line_count(text) + 1, 1, grammar.LeftOpen([opened.line for opened in reader.open])))
    return reader.faults


# --- fields for programs ---------------------------------------------------------------------------------------------------------

def code(fault):
    cause = fault.cause
    if isinstance(cause, grammar.Unfit):
        if cause.word is None:
            return 'missing-word'
        if cause.wanted is None:
            return 'unknown-command'
        return {'PROPERTY': 'unknown-property', 'VALUE': 'wrong-value'}.get(cause.wanted.shown, 'wrong-word')
    return {lexer.BadByte: 'bad-byte', grammar.TooMany: 'extra-word', grammar.Misplaced: 'misplaced', grammar.BadQuery: 'bad-query',
            grammar.LeftOpen: 'left-open', grammar.NoFirstLine: 'no-first-line'}[type(cause)]


def as_object(fault, script, message):
    return {'line': fault.line, 'column': fault.column, 'code': code(fault), 'message': message, 'fix': fix(fault, script)}


def fix(fault, script):
    """The line as it may have been meant, if a change of one word makes it a line of a script; otherwise None."""
    line, version = script.line(fault.line), 2 if b'script 2' in script.text[:400] else 1
    if isinstance(fault.cause, (grammar.LeftOpen, grammar.NoFirstLine, grammar.Misplaced)) or line is None:
        return {grammar.LeftOpen: 'end', grammar.NoFirstLine: 'script 1'}.get(type(fault.cause))
    return _mended(line.rstrip(b'\r'), fault.column, fault.cause, version, MOST_WORDS)


def _mended(line, column, cause, version, left):
    """The line with a word changed; if that brings another fault further on, with more of them."""
    text = ''.join([chr(byte) if 32 <= byte <= 126 else ' ' for byte in line])
    before, word, after = text[:column - 1], (text[column - 1:].split(' ') or [''])[0], text[column - 1:]
    if isinstance(cause, grammar.Unfit) and cause.word is None:
        after, word = after.lstrip(), ''
        if not foreign.commented(after):
            return None
        changed = ' '.join((before + ' ' + after[1:]).split())
        return _tried(changed, column, version, left)
    for other in _candidates(cause, word):
        found = _tried(' '.join((before + other + after[len(word):]).split()), column, version, left)
        if found is not None:
            return found
    return None


def _tried(text, column, version, left):
    fault = _fault_of(text, version)
    if fault is None:
        return text
    return _mended(text.encode(), fault.column, fault.cause, version, left - 1) if left and fault.column > column else None


def _fault_of(text, version):
    """The fault of a line by itself, or None."""
    words = grammar.Words(1, text.encode())
    try:
        if words.next() == b'handler':
            words.at = 1
            words.take(grammar.forms.HANDLER)
        elif words.next() == b'script':
            words.at = 1
            words.take(grammar.forms.keywords('1', '2'))
        elif words.next() == b'end':
            words.at = 1
        elif words.next() is not None:
            grammar.read_command(words, version)
            return None
        else:
            return None
        words.end()
    except Fault as fault:
        return fault
    return None


_FIRST = {'if': 'when', 'unless': 'when not', 'foreach': 'each', 'for': 'each', 'appendchild': 'append', 'insertbefore': 'before',
          'scrollto': 'scroll', 'scrollby': 'scroll-by', 'function': 'handler', 'div': 'block', 'img': 'image', 'iframe': 'frame', '}': 'end',
          'wait': 'tick', 'sleep': 'tick', 'observe': 'ro-observe', 'unobserve': 'ro-unobserve', 'addeventlistener': 'listen',
          'removechild': 'remove', 'delete': 'remove', 'takerecords': 'io-take', 'add': 'append', '});': 'end', 'log': 'say', 'print': 'say'}
_OTHERS = {'narrower': 'not wider', 'shorter': 'not taller', 'visible': 'seen', 'hidden': 'not seen', 'intersecting': 'seen', 'border-box': 'border',
           'content-box': 'content', 'connected': 'attached', 'device-pixel-content-box': 'device'}


def _candidates(cause, word):
    """Words that may have been meant in place of the one at fault."""
    if isinstance(cause, grammar.TooMany):
        if word.startswith(('//', '/*')):
            yield '# ' + word[2:]
        elif word in ('{', ';'):
            yield ''
        return
    if not isinstance(cause, grammar.Unfit):
        return
    if cause.wanted is None:
        known = hints.close(word, cause.first_words)
        yield from [_FIRST[word.lower()]] if _FIRST.get(word.lower()) else []
        yield from ['# ' + word.lstrip('/*')] if word.startswith(('//', '/*')) else []
        yield from known
        return
    is_missing = cause.wanted.shown == 'VALUE' and foreign.value('margin', word) or cause.wanted.shown == 'PROPERTY' and foreign.property_(
        word) and word.islower()
    yield from [] if is_missing else _words_like(word, cause.wanted)


def _words_like(word, wanted):
    """A word in the form that is wanted there."""
    bare = word.rstrip(';,').lstrip('.').strip('"\'[]')
    if wanted.keywords and not word.startswith('!'):
        yield from hints.close(word.rstrip(':;,'), wanted.keywords)
    if word.lower() in _OTHERS:
        yield _OTHERS[word.lower()]
    if word.startswith('!'):
        yield 'not ' + word[1:]
        return
    if re.fullmatch(r'-?\.[0-9]+(px|%)?', word):
        yield word.replace('.', '0.')
        yield word.replace('.', '0.') + 'px'
    number = re.fullmatch(r'(-?[0-9]+)(\.[0-9]*)?(px|PX|Px|pX|%|ms|s)?[;,]?', word)
    if number:
        whole, part, unit = number.group(1), (number.group(2) or '')[:3].rstrip('.'), number.group(3) or ''
        for ending in ('px', '%' if unit == '%' else 'px'):
            yield whole + part + ending
            yield whole.lstrip('-') + part + ending
        if unit in ('ms', '') and not part:
            yield whole.lstrip('0-') or '0'
        if unit == 's' and not part:
            yield whole + '000'
        if unit == '%' and not part and 0 <= int(whole) <= 100:
            yield ('%.2f' % (int(whole) / 100)).rstrip('0').rstrip('.')
    if bare != word:
        yield bare
    if re.match(r'[A-Za-z]', bare):
        yield re.sub(r'[^A-Za-z0-9_-]', '-', bare)[:32].rstrip('-')
    camel = re.sub(r'([A-Z])', lambda letter: '-' + letter.group(1).lower(), word)
    if camel != word:
        yield camel
