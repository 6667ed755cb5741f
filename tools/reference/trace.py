"""The lines of a trace (docs/TRACE.md): their texts, and whether bytes are such a line."""
import re

from .lengths import px, rectangle_text
from .world import MOST

LOOP_ERROR = 'ResizeObserver loop completed with undelivered notifications.'

KINDS = ('tick', 'timer', 'frame', 'task', 'event', 'resize', 'round', 'intersect', 'take', 'say', 'read', 'throw', 'limit',
         'syntax')
LIMITS = ('script', 'line', 'handlers', 'nesting', 'recorded', 'pages', *MOST[2])         # limits on texts, and limits on pages
THROWS = ('ReferenceError', 'TypeError', 'HierarchyRequestError', 'NotFoundError', 'SyntaxError', 'RangeError')


def resize_line(observer, entry, version):
    line = 'resize %s %s rect %s border %s' % (
        observer.name, entry.target.name, ' '.join([px(units) for units in entry.corner + entry.content]),
        ' '.join([px(units) for units in entry.border]))
    return line if version == 1 else '%s device %d %d' % ((line,) + entry.device)


def intersect_line(observer, entry):
    return 'intersect %s %s %d %s %d/%d root %s box %s cut %s' % (
        observer.name, entry.target.name, entry.time, 'yes' if entry.meets else 'no', entry.part, entry.whole,
        rectangle_text(entry.root), rectangle_text(entry.box), rectangle_text(entry.cut))


def read_line(name, units):
    return 'read %s %s' % (name, ' '.join([px(number) for number in units]))


def error_line(document):
    return 'event error @%s %s' % (document.name, LOOP_ERROR)


# --- reading ----------------------------------------------------------------------------------------------------------------

_NAME = r'[A-Za-z][A-Za-z0-9_-]{0,31}'
_NUMBER = r'(?:0|[1-9][0-9]*)'
_PIXELS = r'(?:-?(?:0|[1-9][0-9]*)(?:\.[0-9]{1,6})?)'
_RECTANGLE = ' '.join(['(%s)' % _PIXELS] * 4)
_GREATEST_EDGE = 1 << 50


def _below(bits):
    return lambda texts: all(int(text) < 1 << bits for text in texts)


def _units(text):
    """The units of a text that `px` gives, or None if it gives no such text."""
    whole, _, rest = text.lstrip('-').partition('.')
    units = int(whole) * 64
    if rest:
        millionths = int(rest.ljust(6, '0'))
        if rest.endswith('0') or millionths % 15625:
            return None
        units += millionths // 15625
    if text.startswith('-'):
        if units == 0:
            return None
        units = -units
    return units if abs(units) <= _GREATEST_EDGE else None


def _lengths(texts):
    return all(_units(text) is not None for text in texts)


def _rectangles(texts):
    """Whether these texts, four for each, are rectangles with their edges in range."""
    units = [_units(text) for text in texts]
    if None in units:
        return False
    return all(abs(units[at + axis] + units[at + 2 + axis]) <= _GREATEST_EDGE
               for at in range(0, len(units), 4) for axis in (0, 1))


def _device(texts):
    return all(text != '-0' and abs(int(text)) <= _GREATEST_EDGE for text in texts)


_FORMS = [
    (r'tick (%s)' % _NUMBER, _below(64)),
    (r'(?:timer|frame|task) %s %s' % (_NAME, _NAME), None),
    (r'event (?:resize @%s|scroll %s|change %s (?:true|false)|error @%s %s)'
     % (_NAME, _NAME, _NAME, _NAME, re.escape(LOOP_ERROR)), None),
    (r'resize %s %s rect %s border (%s) (%s)' % (_NAME, _NAME, _RECTANGLE, _PIXELS, _PIXELS),
     lambda texts: _rectangles(texts[:4]) and _lengths(texts[4:])),
    (r'resize %s %s rect %s border (%s) (%s) device (-?%s) (-?%s)'
     % (_NAME, _NAME, _RECTANGLE, _PIXELS, _PIXELS, _NUMBER, _NUMBER),
     lambda texts: _rectangles(texts[:4]) and _lengths(texts[4:6]) and _device(texts[6:])),
    (r'round %s (%s)' % (_NAME, _NUMBER), _below(32)),
    (r'intersect %s %s (%s) (?:yes|no) (%s)/(%s) root %s box %s cut %s'
     % (_NAME, _NAME, _NUMBER, _NUMBER, _NUMBER, _RECTANGLE, _RECTANGLE, _RECTANGLE),
     lambda texts: _below(64)(texts[:1]) and _below(128)(texts[1:3]) and _rectangles(texts[3:])),
    (r'take %s (%s)' % (_NAME, _NUMBER), _below(64)),
    (r'say %s' % _NAME, None),
    (r'read %s %s (%s) (%s)' % (_NAME, _RECTANGLE, _PIXELS, _PIXELS),
     lambda texts: _rectangles(texts[:4]) and _lengths(texts[4:])),
    (r'throw (%s) (?:%s)' % (_NUMBER, '|'.join(THROWS)), _below(32)),
    (r'limit (?:%s) (%s) (%s)' % ('|'.join(LIMITS), _NUMBER, _NUMBER),
     lambda texts: _below(32)(texts[:1]) and _below(64)(texts[1:])),
    (r'syntax (%s) (%s)' % (_NUMBER, _NUMBER), _below(32)),
]
_COMPILED = [(re.compile(form + r'\n\Z'), test) for form, test in _FORMS]


def is_line(text):
    """Whether these bytes, including the line feed, are the text of a trace line in one of the two versions."""
    try:
        decoded = text.decode('ascii')
    except UnicodeDecodeError:
        return False
    for form, test in _COMPILED:
        found = form.match(decoded)
        if found and (test is None or test(found.groups())):
            return True
    return False
