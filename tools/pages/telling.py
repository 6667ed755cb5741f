"""What the browser told, as lines of a trace."""
from reference.lengths import px

from .boxes import document_of, units
from .reading import Call

ERROR = 'ResizeObserver loop completed with undelivered notifications.'


def rectangle(rect):
    return 'null' if rect is None else ' '.join(px(units(side)) for side in rect)


def area(rect):
    return 0 if rect is None else units(rect[2]) * units(rect[3])


def share(entry):
    """The visible area and the whole one; a ratio that isn't that of the rectangles has a mark."""
    whole, part = area(entry['box']), area(entry['cut'])
    if whole == 0:
        return '%d/1' % (entry['ratio'] == 1)
    return '%d/%d' % (part, whole) if abs(part / whole - entry['ratio']) <= 1e-3 else '~%r' % entry['ratio']


class Teller:
    """The lines of a recording's trace, with the names and times of its script."""

    def __init__(self, script):
        self.script, self.lines, self.rounds = script, [], None

    def trace(self):
        before = 0
        for update, time in zip(self.script.updates, self.script.ticks):
            self._taken(update.before, before)
            self.lines.append('tick %d' % time)
            before = time
            for row in update.events:
                self._event(row)
            for call in update.calls:
                self._resized(call)
                self._taken(call.steps if isinstance(call, Call) else (), time)
            self._round()
            for call in update.found:
                self._found(call.observer, call.entries, time)
                self._taken(call.steps, time)
        return self.lines

    def _taken(self, steps, time):
        """What `takeRecords` returned."""
        for row in steps:
            if row['what'] == 'take':
                self.lines.append('take %s %d' % (self.script.observers[row['observer']], len(row['entries'])))
                self._found(row['observer'], row['entries'], time)

    def _event(self, row):
        script = self.script
        if not script.tells(row):
            return
        if row['what'] == 'scroll':
            number = document_of(row['target'])
            self.lines.append('event scroll %s' % (script.elements[row['target']] if number is None else script.documents[number]))
        elif row['what'] == 'resize':
            self.lines.append('event resize @%s' % script.documents[row['document']])
        else:
            self.lines.append('event change %s %s' % (script.media[row['media']], 'true' if row['matches'] else 'false'))

    def _round(self, key=None, depth=None):
        """Ends a round when another one begins."""
        if self.rounds is not None and self.rounds[0] != key:
            self.lines.append('round %s %d' % (self.script.documents.get(self.rounds[0][0], 'top'), self.rounds[1]))
            self.rounds = None
        if key is not None:
            self.rounds = (key, depth if self.rounds is None else min(depth, self.rounds[1]))

    def _resized(self, call):
        script = self.script
        if not isinstance(call, Call):
            self._round()
            self.lines.append('event error @%s %s' % (script.documents.get(call['document'], 'top'), ERROR))
            return
        self._round((call.document, call.round), min(entry['depth'] for entry in call.entries))
        for entry in call.entries:
            name = script.elements.get(entry['element'], '?')
            device = [str(int(round(side))) for side in entry['device']] if entry['device'] else ['?', '?']
            self.lines.append('resize %s %s rect %s border %s device %s' % (
                script.observers[call.observer], name, rectangle(entry['rect']), rectangle(entry['border']), ' '.join(device)))

    def _found(self, observer, entries, time):
        for entry in entries:
            self.lines.append('intersect %s %s %d %s %s root %s box %s cut %s' % (
                self.script.observers[observer], self.script.elements.get(entry['element'], '?'), time, 'yes' if entry['is'] else 'no',
                share(entry), rectangle(entry['root']), rectangle(entry['box']), rectangle(entry['cut'])))
