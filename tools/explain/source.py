"""The script's file: its bytes, and what is said of a file that isn't plain ASCII."""
import sys
import unicodedata

from reference.lexer import MOST_SCRIPT

_MARKS = ((b'\xef\xbb\xbf', 'a byte order mark (EF BB BF), which some editors put before UTF-8'),
          (b'\xff\xfe', 'the byte order mark of UTF-16 (FF FE)'), (b'\xfe\xff', 'the byte order mark of UTF-16 (FE FF)'))
_ASCII_FOR = {'\u2018': "'", '\u2019': "'", '\u201c': '"', '\u201d': '"', '\u2013': '-', '\u2014': '-', '\u2212': '-',
              '\u00a0': 'a space', '\u200b': 'nothing', '\u2026': '...', '\u00d7': 'x'}


def read(path):
    """The bytes of a file, or of standard input for `-`; not more than the first that is too many for a script."""
    if path == '-':
        return sys.stdin.buffer.read(MOST_SCRIPT + 1)
    with open(path, 'rb') as file:
        return file.read(MOST_SCRIPT + 1)


class Script:
    """The bytes of a script with its lines, for pointing at them."""

    def __init__(self, text):
        self.text = text
        self._lines = None

    def line(self, number):
        """The bytes of a line without its line feed, or None where there is none."""
        if self._lines is None:
            self._lines = self.text.split(b'\n')
        return self._lines[number - 1] if 0 < number <= len(self._lines) else None

    def command(self, number):
        """A line's words, one space apart, without its comment."""
        words = (self.line(number) or b'').split()
        for place, word in enumerate(words):
            if word.startswith(b'#'):
                words = words[:place]
                break
        return b' '.join(words).decode('ascii', 'replace')


def notes(text, bad_byte=None):
    """Sentences on what isn't seen in an editor: a byte order mark, carriage returns, letters outside ASCII; not on what is
    said of the bad byte of a fault."""
    found = []
    for mark, called in _MARKS:
        if text.startswith(mark):
            found.append('The file begins with %s. A script is plain ASCII: save it as such, without the mark.' % called)
    returns = text.count(b'\r')
    if returns and (bad_byte != 13 or b'\n' not in text):
        found.append(_returns_said(text, returns))
    place = next((place for place, byte in enumerate(text[:MOST_SCRIPT]) if byte > 126), None) if not text.isascii() else None
    if place is not None and bad_byte is None:
        line = text.count(b'\n', 0, place) + 1
        found.append('The file has characters outside ASCII, the first on line %d: byte %02X, %s. Comments must be ASCII too.' % (
            line, text[place], letter_said(text, place)))
    return found


def _returns_said(text, returns):
    before_feeds = text.count(b'\r\n')
    if before_feeds == returns:
        return ('The lines of the file end with a carriage return and a line feed, as on Windows. That is allowed; the carriage '
                "return counts towards a line's 4,096 bytes.")
    if before_feeds == 0 and b'\n' not in text:
        return ('The lines of the file end with carriage returns only. A line must end with a line feed: save the file with Unix '
                'line endings.')
    at = next(place for place in range(len(text)) if text[place] == 13 and text[place + 1:place + 2] != b'\n')
    return ("The file has a carriage return that isn't part of a line ending, on line %d. One is allowed only directly before a "
            'line feed.' % (text.count(b'\n', 0, at) + 1))


def letter_said(text, place):
    """What a byte outside ASCII is a part of: a byte order mark, or a letter in UTF-8 or in Latin-1."""
    for mark, _ in _MARKS:
        if place < len(mark) and text.startswith(mark):
            return 'part of the byte order mark'
    for start in range(max(0, place - 3), place + 1):
        for length in range(2, 5):
            if start + length <= place:
                continue
            try:
                letter = text[start:start + length].decode('utf-8')
            except UnicodeDecodeError:
                continue
            if len(letter) == 1:
                return _named(letter)
    letter = bytes([text[place]]).decode('latin-1')
    return 'not valid UTF-8' + ('; in Latin-1 it is %s' % letter if letter.isprintable() else '')


def _named(letter):
    name = unicodedata.name(letter, 'without a name').lower()
    said = ('part of %s (U+%04X, %s)' % (letter, ord(letter), name) if letter.isprintable()
            else 'part of U+%04X (%s)' % (ord(letter), name))
    other = _ASCII_FOR.get(letter)
    if other:
        said += '; %s' % ('leave it out' if other == 'nothing' else 'use %s instead' % (
            other if other.startswith('a ') else '`%s`' % other))
    return said
