"""Style properties and their values (docs/SCRIPT.md, 'Style properties'); only version 2 has `position` and the insets.

A form of values says how docs/SCRIPT.md writes it, and returns None for a word that doesn't have it.
"""
from .lengths import AUTO, NONE, read_length, read_percent, read_signed, read_signed_percent

SIDES = ('top', 'right', 'bottom', 'left')
POSITIONED = ('position',) + SIDES
ZERO = ('px', 0)


class Values:
    """The values that a property may have: keywords, and lengths and percentages by their readers."""

    def __init__(self, *keywords, lengths=None, percents=None):
        self.keywords, self.lengths, self.percents = keywords, lengths, percents

    def read(self, word):
        text = word.decode('ascii', 'replace')
        for keyword in self.keywords:
            if keyword == text:
                return keyword
        units = self.lengths(word) if self.lengths else None
        if units is not None:
            return ZERO if units == 0 else ('px', units)
        hundredths = self.percents(word) if self.percents else None
        return None if hundredths is None else ('%', hundredths)

    def forms(self):
        """The names of the allowed values, as in docs/SCRIPT.md."""
        names = ['`%s`' % keyword for keyword in self.keywords]
        if self.lengths:
            names.append('SIGNED' if self.lengths is read_signed else 'LENGTH')
        if self.percents:
            names.append('PERCENT, optionally with `-` before it' if self.percents is read_signed_percent else 'PERCENT')
        return names


_SIZE = Values(AUTO, lengths=read_length, percents=read_percent)
_EDGE = Values(lengths=read_length, percents=read_percent)
_MOST = Values(NONE, lengths=read_length, percents=read_percent)
_BORDER = Values(lengths=read_length)
_INSET = Values(AUTO, lengths=read_signed, percents=read_signed_percent)


class Property:
    """The style's fields that a property sets, its values, and the first version of the language that has it."""

    def __init__(self, fields, values, version=1):
        self.fields, self.values, self.version = fields, values, version


def _properties():
    table = {
        'display': Property(('display',), Values('block', 'none')),
        'box-sizing': Property(('box-sizing',), Values('content-box', 'border-box')),
        'overflow': Property(('overflow',), Values('visible', 'hidden', 'clip', 'scroll', 'auto')),
        'position': Property(('position',), Values('static', 'relative', 'absolute', 'fixed'), version=2),
    }
    for axis in ('width', 'height'):
        table[axis] = Property((axis,), _SIZE)
        table['min-' + axis] = Property(('min-' + axis,), _EDGE)
        table['max-' + axis] = Property(('max-' + axis,), _MOST)
    for edge, values in (('margin', _EDGE), ('padding', _EDGE), ('border', _BORDER)):
        sides = tuple('%s-%s' % (edge, side) for side in SIDES)
        table[edge] = Property(sides, values)
        for side in sides:
            table[side] = Property((side,), values)
    for side in SIDES:
        table[side] = Property((side,), _INSET, version=2)
    return table


def _first_values():
    style = {'display': 'block', 'width': AUTO, 'height': AUTO, 'min-width': ZERO, 'min-height': ZERO, 'max-width': NONE,
             'max-height': NONE, 'box-sizing': 'content-box', 'overflow': 'visible', 'position': 'static'}
    for side in SIDES:
        style[side] = AUTO
        for edge in ('margin', 'padding', 'border'):
            style['%s-%s' % (edge, side)] = ZERO
    return style


PROPERTIES = _properties()
FIRST_VALUES = _first_values()


def known(version, without=()):
    """The names of the properties of a version of the language, except those in `without`."""
    return [name for name, row in PROPERTIES.items() if row.version <= version and name not in without]
