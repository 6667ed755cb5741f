"""Bytes, lines and words of a script (docs/SCRIPT.md, 'Bytes, lines, words', 'Limits' and 'The first fault of a text').

Lines are produced one at a time, so that the first fault or limit in the order of the lines is found first.
"""
import re

MOST_SCRIPT = 16777216
MOST_LINE = 4096

_BAD_BYTE = re.compile(rb'[^\x20-\x7e\t]')
_WORD = re.compile(rb'[\x21-\x7e]+')
_LINE_WITH_BYTES = re.compile(rb'[^\n]+')


class BadByte:
    """A fault's cause: a byte that isn't allowed in a line."""

    def __init__(self, byte):
        self.byte = byte


class Fault(Exception):
    """The text isn't a script. The cause says what is there and what is allowed there."""

    def __init__(self, line, column, cause):
        Exception.__init__(self, line, column, cause)
        self.line, self.column, self.cause = line, column, cause

    def text(self):
        return 'syntax %d %d' % (self.line, self.column)


class TextLimit(Exception):
    """A text meets a limit: `script`, `line`, `handlers` or `nesting`. `held` are the lines of what was counted."""

    def __init__(self, kind, line, number, held=()):
        Exception.__init__(self, kind, line, number)
        self.kind, self.line, self.number, self.held = kind, line, number, held

    def text(self):
        return 'limit %s %d %d' % (self.kind, self.line, self.number)


def check_size(text):
    if len(text) > MOST_SCRIPT:
        raise TextLimit('script', 1 + text.count(b'\n', 0, MOST_SCRIPT), MOST_SCRIPT)


def lines_of(text):
    """(number, bytes, whether a line feed ends it) for each line that isn't empty."""
    number, at = 1, 0
    for found in _LINE_WITH_BYTES.finditer(text):
        number += text.count(b'\n', at, found.start())
        at = found.start()
        yield number, found.group(), found.end() < len(text)


def line_count(text):
    return text.count(b'\n') + (1 if text and not text.endswith(b'\n') else 0)


def check_bytes(number, line, ended):
    """Checks the bytes of a line in order, up to the first invalid one, or byte 4,097."""
    body = line[:-1] if ended and line.endswith(b'\r') else line
    bad = _BAD_BYTE.search(body, 0, MOST_LINE)
    if bad:
        raise Fault(number, bad.start() + 1, BadByte(bad.group()[0]))
    if len(line) > MOST_LINE:
        raise TextLimit('line', number, MOST_LINE)


def words_of(line):
    """(column, word) for each word up to a comment."""
    words = []
    for found in _WORD.finditer(line):
        word = found.group()
        if word.startswith(b'#'):
            break
        words.append((found.start() + 1, word))
    return words
