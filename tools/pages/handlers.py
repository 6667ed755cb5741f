"""What callbacks did, as handlers. A callback that always leaves the same sizes behind is a plain list of commands; one that does
different things at different sizes has a condition on a size; what neither explains is told by the number of the update."""
from reference.lengths import UNITS_PER_PIXEL

from .boxes import length

STEPS = (1000, 500, 100, 50, 10, 5, 1)
MOST_TARGETS = 8


class Done:
    """What one call of a callback did: its commands, and where it begins and ends in the history of properties."""

    def __init__(self, update, place, commands, start, end, targets):
        self.update, self.place, self.commands, self.start, self.end, self.targets = update, place, commands, start, end, targets

    def sets(self):
        """The properties that it sets, if it does nothing else; otherwise None."""
        found = {}
        for words in self.commands:
            if words[0] != 'set':
                return None
            found[words[1], words[2]] = words[3]
        return found


class History:
    """The values of properties over time."""

    def __init__(self):
        self.values, self.time = {}, 0

    def set(self, name, prop, value):
        self.time += 1
        self.values.setdefault((name, prop), []).append((self.time, value))

    def at(self, key, time):
        found = None
        for when, value in self.values.get(key, ()):
            if when > time:
                break
            found = value
        return found

    def size(self, name, prop, time):
        """The width or height of a border box at a time, in hundredths of a pixel; 0 if it has none."""
        value = self.at((name, prop), time)
        if value is None or self.at((name, 'display'), time) == 'none':
            return 0
        return int(round(float(value[:-2]) * 100))


def holds(wanted, calls, history):
    """Whether each of these calls leaves behind what is wanted."""
    return all(history.at(key, call.end) == value for call in calls for key, value in wanted.items())


def union(calls):
    found = {}
    for call in calls:
        found.update(call.sets())
    return found


def set_lines(sets):
    return ['set %s %s %s' % (name, prop, value) for (name, prop), value in sets.items()]


def by_size(calls, history):
    """Lines with a condition on a size of a target, or None."""
    targets = list(dict.fromkeys(name for call in calls for name in call.targets))[:MOST_TARGETS]
    for name in targets:
        for prop, word in (('width', 'wider'), ('height', 'taller')):
            sizes = [history.size(name, prop, call.start) for call in calls]
            for low, high in zip(sorted(set(sizes)), sorted(set(sizes))[1:]):
                above = [call for call, size in zip(calls, sizes) if size > low]
                below = [call for call, size in zip(calls, sizes) if size <= low]
                lines = split(name, prop, word, between(low, high), above, below, history)
                if lines:
                    return lines
    return None


def between(low, high):
    """The roundest size that is at least the lower one and below the higher one, in hundredths."""
    for step in STEPS:
        size = -(-low // (step * 100)) * step * 100
        if size < high:
            return size
    return low


def split(name, prop, word, size, above, below, history):
    over, under = union(above), union(below)
    if not holds(over, above, history) or not holds(under, below, history):
        return None
    if under and any(history.size(name, prop, call.end) <= size for call in above):
        return None
    shown = ('%.2f' % (size / 100)).rstrip('0').rstrip('.') + 'px'
    lines = []
    for sets, negation in ((over, ''), (under, 'not ')):
        if sets:
            lines += ['when %s%s %s %s' % (negation, word, name, shown)] + set_lines(sets) + ['end']
    return lines


def by_update(calls, turn, line):
    """Lines that tell the update by the width of `now`, and the calls within one update by the width of another box, if needed."""
    lines, several = [], False
    for update in sorted({call.update for call in calls if call.commands}):
        own = [call for call in calls if call.update == update]
        lines += ['when wider now %s' % length((update - 1) * UNITS_PER_PIXEL), 'when not wider now %s' % length(update * UNITS_PER_PIXEL)]
        if len(own) == 1:
            lines += [line(words) for words in own[0].commands]
        else:
            several = True
            for call in own:
                if call.commands:
                    lines += ['when %swider %s %dpx' % ('' if call.place else 'not ', turn, max(call.place - 1, 0))]
                    lines += ['when not wider %s %dpx' % (turn, call.place)] if call.place else []
                    lines += [line(words) for words in call.commands] + ['end'] * (2 if call.place else 1)
        lines += ['end', 'end']
    return lines + (['grow %s width 1px' % turn] if several else []), several


class Handler:
    """The lines of an observer's handler; `needs_now` and `needs_turn` say which helping boxes it has."""

    def __init__(self, name, calls, history, line):
        self.name, self.lines, self.needs_now, self.needs_turn = name, [], False, False
        self.turn = 'turn-' + name[:27]
        if not any(call.commands for call in calls):
            return
        if all(call.sets() is not None for call in calls):
            wanted = union(calls)
            if holds(wanted, calls, history):
                self.lines = set_lines(wanted)
                return
            self.lines = by_size(calls, history) or []
        if not self.lines:
            self.lines, self.needs_turn = by_update(calls, self.turn, line)
            self.needs_now = True
