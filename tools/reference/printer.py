"""The printed form of a script (docs/TRACE.md, 'Words'): each line at its line number, single spaces between the words of a line, and each
length, percentage, number and media query in its shortest form. All other words are printed as they are.
"""
import re

from . import forms, grammar
from .lengths import UNITS_PER_PIXEL, read_length
from .lexer import lines_of

_BLANKS = re.compile(rb'[ \t]+')
_FEATURE = re.compile(rb'\([^)]*\)')
_LENGTH = re.compile(rb'[0-9]+(?:\.[0-9]+)?px')


def _places(number, places):
    """A number counted in units of its last decimal place, without trailing zeros."""
    whole, part = divmod(number, 10 ** places)
    digits = ('%0*d' % (places, part)).rstrip('0')
    return '%d.%s' % (whole, digits) if digits else '%d' % whole


def _pixels(units):
    """The least number with as few decimal places as possible that is read as this length."""
    for places in range(3):
        number = -(-units * 10 ** places // UNITS_PER_PIXEL)
        if number * UNITS_PER_PIXEL // 10 ** places == units:
            break
    return '%d.%0*d' % (divmod(number, 10 ** places)[0], places, number % 10 ** places) if places else '%d' % number


def _signed(text, number):
    return ('-' if number < 0 else '') + text(abs(number))


def length(units):
    return _signed(lambda amount: _pixels(amount) + 'px', units)


def percentage(hundredths):
    return _signed(lambda amount: _places(amount, 2) + '%', hundredths)


def number(value):
    return _signed(lambda amount: _places(amount, 4), value)


def query(text):
    """A media query list with a space wherever one is required, and no other."""
    text = _FEATURE.sub(lambda found: _BLANKS.sub(b'', found.group()), _BLANKS.sub(b' ', text))
    text = _LENGTH.sub(lambda found: length(read_length(found.group())).encode(), text)
    return text.replace(b' ,', b',').replace(b', ', b',').decode('ascii')


def _style_value(value, word):
    if isinstance(value, tuple):
        return length(value[1]) if value[0] == 'px' else percentage(value[1])
    return word


def _operand(operand, words):
    """The words of an operand that are printed otherwise than they are written, by their places in the line."""
    place, value = operand.word, operand.value
    if operand.form in (forms.LENGTH, forms.SIGNED):
        return {place: length(value)}
    if operand.form is forms.PERCENT:
        return {place: percentage(value)}
    if operand.form is forms.THRESHOLDS:
        return {place + index: number(each) for index, each in enumerate(value)}
    if operand.form.shown == 'VALUE':
        return {place: _style_value(value[1], words[place])}
    return {}


def _command_text(words, version, without):
    texts = [word.decode('ascii') for _, word in words.words]
    command = grammar.read_command(words, version, without)
    if command.name == 'media':
        start = words.words[3][0]
        last, word = words.words[-1]
        return ' '.join(texts[:3] + [query(words.line[start - 1:last - 1 + len(word)])])
    for operand in command.operands:
        for place, text in _operand(operand, texts).items():
            texts[place] = text
    return ' '.join(texts)


def _line_text(words, version, without):
    first = words.next()
    if first in (b'handler', b'end'):
        return ' '.join(word.decode('ascii') for _, word in words.words)
    return _command_text(words, version, without)


def printed(text, language):
    """The lines of a script's printed form."""
    script = grammar.parse(text, language)
    lines, is_first = ['script %d' % script.version], True
    for line_number, line, _ in lines_of(text):
        words = grammar.Words(line_number, line)
        if words.next() is None:
            continue
        if is_first:
            is_first = False
            continue
        lines.extend([''] * (line_number - 1 - len(lines)))
        lines.append(_line_text(words, script.version, language.without))
    return lines
