"""Media queries (Media Queries 4, 3; docs/SCRIPT.md, 'Style properties').

The language of the grammar is regular, even with the range of lengths, so it is represented by a finite automaton in which
every state leads to an end. A text is a prefix of a media query list exactly if the set of states after it isn't empty.
"""
from collections import deque

from .lengths import read_length


class _Automaton:
    def __init__(self):
        self.empty = []                   # state -> the states reached without a byte
        self.steps = []                   # state -> (set of bytes, state) pairs

    def state(self):
        self.empty.append([])
        self.steps.append([])
        return len(self.empty) - 1


# A fragment is a function of an automaton and a state; it adds the fragment after that state and returns its last state.

def _text(text):
    def add(automaton, at):
        for byte in text.encode():
            to = automaton.state()
            automaton.steps[at].append((frozenset([byte]), to))
            at = to
        return at
    return add


def _one_of(bytes_):
    def add(automaton, at):
        to = automaton.state()
        automaton.steps[at].append((frozenset(bytes_.encode()), to))
        return to
    return add


def _all(*parts):
    def add(automaton, at):
        for part in parts:
            at = part(automaton, at)
        return at
    return add


def _either(*parts):
    def add(automaton, at):
        end = automaton.state()
        for part in parts:
            start = automaton.state()
            automaton.empty[at].append(start)
            automaton.empty[part(automaton, start)].append(end)
        return end
    return add


def _any_number(part):
    def add(automaton, at):
        loop = automaton.state()
        automaton.empty[at].append(loop)
        automaton.empty[part(automaton, loop)].append(loop)
        end = automaton.state()
        automaton.empty[loop].append(end)
        return end
    return add


def _maybe(part):
    return _either(part, _all())


def _some(part):
    return _all(part, _any_number(part))


def _times(part, least, most):
    return _either(*[_all(*[part] * count) for count in range(least, most + 1)])


_digit = _one_of('0123456789')
_space = _any_number(_one_of(' \t'))
_gap = _some(_one_of(' \t'))
_hundredths = _maybe(_all(_text('.'), _times(_digit, 1, 2)))
_length = _all(_either(
    _all(_times(_digit, 1, 6), _hundredths),
    _all(_text('0'), _times(_digit, 6, 6), _hundredths),
    _all(_text('1000000'), _maybe(_all(_text('.'), _times(_text('0'), 1, 2)))),
), _text('px'))
_sized = _either(*[_text(prefix + axis) for prefix in ('', 'min-', 'max-') for axis in ('width', 'height')])
_feature = _all(
    _text('('), _space,
    _either(_all(_sized, _space, _text(':'), _space, _length),
            _all(_text('orientation'), _space, _text(':'), _space, _either(_text('portrait'), _text('landscape')))),
    _space, _text(')'))
_type = _either(_text('all'), _text('screen'), _text('print'))
_typed = _all(_maybe(_all(_either(_text('not'), _text('only')), _gap)), _type,
              _any_number(_all(_gap, _text('and'), _gap, _feature)))
_condition = _either(
    _all(_text('not'), _gap, _feature),
    _all(_feature, _any_number(_all(_gap, _text('and'), _gap, _feature))),
    _all(_feature, _some(_all(_gap, _text('or'), _gap, _feature))))
_query = _either(_typed, _condition)
_list = _all(_query, _any_number(_all(_space, _text(','), _space, _query)))

_AUTOMATON = _Automaton()
_START = _AUTOMATON.state()
_END = _list(_AUTOMATON, _START)


def _closure(states):
    seen = set(states)
    waiting = list(states)
    while waiting:
        for state in _AUTOMATON.empty[waiting.pop()]:
            if state not in seen:
                seen.add(state)
                waiting.append(state)
    return frozenset(seen)


_FIRST = _closure([_START])
_REACHED = {}


def _after(states, byte):
    key = (states, byte)
    if key not in _REACHED:
        _REACHED[key] = _closure([to for state in states for bytes_, to in _AUTOMATON.steps[state] if byte in bytes_])
    return _REACHED[key]


def bad_column(text):
    """None for a media query list; otherwise the column, from 1, of the first byte with which the text is no longer a prefix
    of one, or the column after its end."""
    states = _FIRST
    for place, byte in enumerate(text):
        states = _after(states, byte)
        if not states:
            return place + 1
    return None if _END in states else len(text) + 1


def shortest_ending(text):
    """The shortest text that completes a prefix of a media query list."""
    states = _FIRST
    for byte in text:
        states = _after(states, byte)
    waiting, seen = deque([(states, b'')]), {states}
    while waiting:
        states, ending = waiting.popleft()
        if _END in states:
            return ending
        known = {byte for state in states for bytes_, _ in _AUTOMATON.steps[state] for byte in bytes_}
        for byte in sorted(known - set(b'\t')):
            reached = _after(states, byte)
            if reached not in seen:
                seen.add(reached)
                waiting.append((reached, ending + bytes([byte])))
    raise ValueError("the text isn't a prefix of a media query list")


# --- the meaning of a media query list --------------------------------------------------------------------------------------

class Query:
    """A media query: whether `not` negates it, its type, whether `or` joins its features, and these with their values."""

    def __init__(self):
        self.turned, self.type, self.joined_by_or, self.features = False, None, False, []

    def holds(self, width, height):
        found = [_feature_holds(feature, width, height) for feature in self.features]
        holds = (any(found) if self.joined_by_or else all(found)) and self.type != 'print'
        return holds != self.turned


def parse(text):
    return [_parse_query(part.strip(' \t')) for part in text.decode('ascii').split(',')]


def _parse_query(text):
    query = Query()
    while text:
        if text[0] == '(':
            end = text.index(')')
            query.features.append(_parse_feature(text[1:end]))
            text = text[end + 1:].lstrip(' \t')
            continue
        word = text.replace('\t', ' ').split(' ')[0]
        text = text[len(word):].lstrip(' \t')
        if word == 'not':
            query.turned = True
        elif word == 'or':
            query.joined_by_or = True
        elif word in ('all', 'screen', 'print'):
            query.type = word
    return query


def _parse_feature(text):
    name, value = [part.strip(' \t') for part in text.split(':')]
    return (name, value if name == 'orientation' else read_length(value.encode()))


def _feature_holds(feature, width, height):
    name, value = feature
    if name == 'orientation':
        return ('portrait' if height >= width else 'landscape') == value
    size = width if name.endswith('width') else height
    if name.startswith('min-'):
        return size >= value
    if name.startswith('max-'):
        return size <= value
    return size == value


def matches(queries, viewport):
    return any(query.holds(*viewport) for query in queries)
