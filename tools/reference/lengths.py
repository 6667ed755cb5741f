"""Lengths and numbers (the rule 'Numbers' of docs/RULES.md; docs/SCRIPT.md, 'Words'; docs/TRACE.md).

All lengths are whole units of 1/64 pixel. A style's length is AUTO, NONE, ('px', units) or ('%', hundredths of a percent).
A reader returns None for a word that doesn't have its form.
"""
import re

UNITS_PER_PIXEL = 64
GREATEST = 2147483647
GREATEST_WRITTEN = 1000000 * UNITS_PER_PIXEL
GREATEST_TIME = 1000000000000
AUTO = 'auto'
NONE = 'none'

_LENGTH = re.compile(rb'([0-9]{1,7})(?:\.([0-9]{1,2}))?px\Z')
_PERCENT = re.compile(rb'([0-9]{1,7})(?:\.([0-9]{1,2}))?%\Z')
_NUMBER = re.compile(rb'(-?)([0-9]{1,9})(?:\.([0-9]{1,4}))?\Z')
_WHOLE = re.compile(rb'(?:0|[1-9][0-9]{0,19})\Z')
_NAME = re.compile(rb'[A-Za-z][A-Za-z0-9_-]{0,31}\Z')


def capped(units):
    return min(units, GREATEST)


def clamped(units):
    return max(-GREATEST, min(units, GREATEST))


def cut(numerator, divisor):
    """The quotient truncated toward zero, for a positive divisor."""
    return numerator // divisor if numerator >= 0 else -(-numerator // divisor)


def percentage(hundredths, basis):
    return cut(basis * hundredths, 10000)


def used(length, basis):
    """A style's length in units, percentages being of `basis`; None if it is `auto` or `none`."""
    if length is AUTO or length is NONE:
        return None
    return capped(length[1] if length[0] == 'px' else percentage(length[1], basis))


# --- the forms of words -----------------------------------------------------------------------------------------------------

def _hundredths(found, most):
    """The number as written, in hundredths; None if it is greater than `most`."""
    number = int(found.group(1)) * 100
    if found.group(2):
        number += int(found.group(2).ljust(2, b'0'))
    return number if number <= most * 100 else None


def read_length(word):
    found = _LENGTH.match(word)
    hundredths = _hundredths(found, 1000000) if found else None
    return None if hundredths is None else hundredths * UNITS_PER_PIXEL // 100


def read_percent(word):
    found = _PERCENT.match(word)
    return _hundredths(found, 10000) if found else None


def _signed(read, word):
    if not word.startswith(b'-'):
        return read(word)
    number = read(word[1:])
    return None if number is None else -number


def read_signed(word):
    return _signed(read_length, word)


def read_signed_percent(word):
    return _signed(read_percent, word)


def read_number(word):
    """A threshold, in ten-thousandths."""
    found = _NUMBER.match(word)
    if not found:
        return None
    number = int(found.group(2)) * 10000
    if found.group(3):
        number += int(found.group(3).ljust(4, b'0'))
    return -number if found.group(1) else number


def read_whole(word, most=GREATEST_TIME):
    if not _WHOLE.match(word):
        return None
    return int(word) if int(word) <= most else None


def read_name(word):
    return word.decode('ascii') if _NAME.match(word) else None


# --- margins of intersection observers (the rule 'Intersections') -----------------------------------------------------------

def _margin_part(word):
    units = read_signed(word)
    if units is not None:
        return ('px', units)
    hundredths = read_signed_percent(word)
    return None if hundredths is None else ('%', hundredths)


def read_margins(text):
    """(top, right, bottom, left) from words joined by one space, completed as in CSS; None if they aren't a margin."""
    parts = [_margin_part(word) for word in text.split(b' ')] if text else [('px', 0)]
    if None in parts or len(parts) > 4:
        return None
    top = parts[0]
    right = parts[1] if len(parts) > 1 else top
    bottom = parts[2] if len(parts) > 2 else top
    left = parts[3] if len(parts) > 3 else right
    return (top, right, bottom, left)


def bad_margin_part(text):
    """The index of the first word that keeps this from being a margin; 4, the fifth, is one too many."""
    parts = [_margin_part(word) for word in text.split(b' ')][:4]
    return parts.index(None) if None in parts else 4


def dilated(rectangle, margins):
    """The rectangle expanded by the margins; percentages refer to its width, on all four sides."""
    left, top, right, bottom = rectangle
    by_top, by_right, by_bottom, by_left = [
        amount if unit == 'px' else percentage(amount, right - left) for unit, amount in margins]
    return (left - by_left, top - by_top, right + by_right, bottom + by_bottom)


# --- printing ---------------------------------------------------------------------------------------------------------------

def px(units):
    """Pixels as an exact decimal number."""
    whole, rest = divmod(abs(units), UNITS_PER_PIXEL)
    sign = '-' if units < 0 else ''
    if not rest:
        return '%s%d' % (sign, whole)
    return '%s%d.%s' % (sign, whole, ('%06d' % (rest * 15625)).rstrip('0'))


def rectangle_text(rectangle):
    """Left, top, width and height."""
    left, top, right, bottom = rectangle
    return ' '.join([px(left), px(top), px(right - left), px(bottom - top)])
