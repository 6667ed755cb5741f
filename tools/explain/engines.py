"""`--as ENGINE`: the trace that an engine gives, by its model in tools/browser/models/, and for each line that differs from the rules'
the class of docs/BROWSERS.md, its cause, and whose side the standard is on.

Gives to others: `Predicted(text, engine, rules)`, whose `lines` are the engine's trace and whose `differences` say what is different;
`Difference.told(engine, number_of)`, the sentences on one; `ENGINES`, the engines by name.
"""
import difflib
import os
import sys

sys.path.insert(0, os.path.join(os.path.dirname(os.path.dirname(os.path.abspath(__file__))), 'browser'))

from reference.comparing import TooLong, time_limit

SECONDS = 20                      # of processor time, for the model
SECONDS_OF_CLASSES = 20           # for finding the classes
ENGINES = {'chromium': 'Chromium', 'firefox': 'Firefox', 'webkit': 'WebKit'}
ALL_NAMES = 'chromium, firefox or webkit'
OTHER_NAMES = {'chrome': 'chromium', 'edge': 'chromium', 'blink': 'chromium', 'opera': 'chromium', 'gecko': 'firefox',
               'safari': 'webkit', 'webkitgtk': 'webkit'}
COLUMNS = {'chromium': 5, 'firefox': 6, 'webkit': 7}
TABLE = os.path.join(os.path.dirname(os.path.abspath(__file__)), '..', '..', 'docs', 'BROWSERS.md')
SAME, CHANGED, ADDED, MISSING, MOVED = 'same', 'changed', 'added', 'missing', 'moved'

_ANY_ORDER = ('The order of these lines is arbitrary in %s (by addresses in memory): the model has the one of the rules.')
_FRAMES = 'Firefox updates the documents of frames in an arbitrary order (by addresses in memory): the model has that of insertion.'
_PARTS = {'firefox': 'Firefox computes in sixtieths of a pixel: a number may be off by up to 0.15 px.',
          'webkit': "WebKit's numbers in lines `intersect` may be off by up to 0.05 px.",
          'chromium': 'At a ratio, a number may be off by up to 0.15 px in Chromium.'}


def named(word):
    """The engine that is meant by a word, or None."""
    word = word.lower()
    return word if word in ENGINES else OTHER_NAMES.get(word)


# --- the table of docs/BROWSERS.md --------------------------------------------------------------------------------------------

class Row:
    """A class: the rule, whose it is, what browsers do, the same for each engine, and how a page notices."""

    def __init__(self, cells):
        self.rule, self.whose, self.does, self.notices = cells[2], cells[3], cells[4], cells[8]
        self.cells = cells

    def in_engine(self, engine):
        """What an engine does: what the row says, or what its own cell says."""
        cell = self.cells[COLUMNS[engine]]
        if cell in ('x', '.'):
            return self.does
        if cell.startswith(('x, ', 'x; ')):
            return '%s (%s)' % (self.does, cell[3:])
        return '%s (in %s: %s)' % (self.does, ENGINES[engine], cell)

    def side(self):
        """Whose side the standard is on, as a sentence."""
        word, _, more = self.whose.partition(' ')
        if self.whose == 'own':
            return ("The standard is on neither side: the rule is this project's own, where standards leave a choice or say "
                    'something else.')
        if self.whose == 'own reading':
            return "The rule is this project's own reading of the standard's text."
        if word.rstrip(',;:') == 'own':
            return "The standard is on neither side: the rule is this project's own (%s)." % more.rstrip('.')
        if word.rstrip(',;:') == 'open':
            return "The standard's text can be read both ways: %s." % more.rstrip('.')
        return "The standard is on the rules' side: %s." % self.whose.rstrip('.')

    @property
    def is_of_the_mapping(self):
        return 'comes from the mapping' in self.notices


def rows():
    """The rows of the table 'What differs', by the name of their class."""
    with open(TABLE, encoding='utf-8') as file:
        cells = [[cell.strip() for cell in line.split('|')] for line in file if line.startswith('| ')]
    return {row[1]: Row(row) for row in cells if len(row) == 10 and row[1] != 'NAME'}


# --- the models ---------------------------------------------------------------------------------------------------------------

def following(engine, classes, script):
    """A model's run without a browser's trace to follow, which notes where an order is arbitrary and where a class was noticed."""
    from models.model import Model

    class Alone(Model):
        """Notes what the model would take from a browser's trace."""

        def __init__(self):
            Model.__init__(self, script, classes)
            self.in_any_order, self.orders_frames = set(), False
            self.noticed, self.written_at = _Noticed(self), {}

        def tell(self, text, about=None):
            self.written_at[len(self.lines)] = self.line
            Model.tell(self, text, about)

        def next_of(self, waiting):
            chosen = Model.next_of(self, waiting)
            if self.has('observers-in-any-order') and len([one for one in waiting if one.queue]) > 1:
                self.in_any_order.add(len(self.lines))
            return chosen

        def _as_told(self, observer, entries, after):
            if self.has('observers-in-any-order') and observer.root is None and len(entries) > 1:
                self.in_any_order.update(range(len(self.lines), len(self.lines) + len(entries)))
            return Model._as_told(self, observer, entries, after)

        def documents_in_order(self):
            found = Model.documents_in_order(self)
            frames = [document for document in found if document.frame is not None]
            self.orders_frames = self.orders_frames or engine == 'firefox' and len(frames) > 1
            return found

    model = Alone()
    model.run()
    return model


class _Noticed(set):
    """The classes that a model notices, each with the number of the lines that were written before."""

    def __init__(self, model):
        set.__init__(self)
        self.model, self.places = model, {}

    def add(self, name):
        self.places.setdefault(len(self.model.lines), set()).add(name)
        set.add(self, name)


class Difference:
    """How a line differs: `kind`, the engine's line, the rules' line, and the classes that it is in."""

    def __init__(self, kind, line, rules):
        self.kind, self.line, self.rules, self.classes = kind, line, rules, set()
        self.follows = set()              # the classes of the difference before it, from which it follows
        self.rule, self.after = None, -1  # the place of the rules' line, or if there is none, of the one before

    def as_object(self, known):
        classes = sorted(self.classes or self.follows)
        return {'kind': self.kind, 'rules': self.rules, 'classes': classes, 'follows': not self.classes,
                'sides': [known[name].side() for name in classes if name in known]}


class Predicted:
    """An engine's trace by its model. `differences` has for each place of `lines` its Difference, or None, and `missing` the rules' lines
    that don't come before a place; `failure` says what went wrong."""

    def __init__(self, text, engine, rules):
        from models.classes import CLASSES, script_of
        self.engine, self.rules = engine, rules
        self.lines, self.differences, self.missing, self.same = [], [], {}, {}
        self.notes, self.failure, self.rows, self.model = [], None, rows(), None
        try:
            with time_limit(SECONDS):
                self.script = script_of(text.decode('latin-1'))
                self.model = following(engine, CLASSES[engine], self.script)
        except TooLong:
            self.failure = "the model of %s didn't end within %d seconds of processor time" % (ENGINES[engine], SECONDS)
        except Exception as fault:
            self.failure = 'the model of %s failed with %r, which is a bug in it' % (ENGINES[engine], fault)
        if self.model is None:
            return
        self.lines = list(self.model.lines)
        self._compare()
        self._find_classes(CLASSES[engine])
        self._note_what_is_open(text)

    # --- lines against lines ------------------------------------------------------------------------------------------------

    def _compare(self):
        """Pairs the lines of both traces, tick by tick."""
        self.differences = [None] * len(self.lines)
        for wrong, here in zip(*_by_tick(self.rules, self.lines)):
            self._pair(wrong, here)

    def _pair(self, rules, here):
        """`rules` and `here` are ranges of the two traces."""
        wanted, got = self.rules[rules.start:rules.stop], self.lines[here.start:here.stop]
        left, added = [], []
        for kind, i1, i2, j1, j2 in difflib.SequenceMatcher(None, wanted, got, autojunk=False).get_opcodes():
            if kind == 'equal':
                self.same.update({here.start + j1 + at: rules.start + i1 + at for at in range(i2 - i1)})
                continue
            left += [(rules.start + at, here.start + j1) for at in range(i1, i2)]
            added += [here.start + at for at in range(j1, j2)]
        for is_alike, kind in ((lambda one, other: one == other, MOVED), (_is_same_thing, CHANGED)):
            for place in list(added):
                found = next((one for one in left if is_alike(self.rules[one[0]], self.lines[place])), None)
                if found is not None:
                    left.remove(found)
                    added.remove(place)
                    self.differences[place] = Difference(kind, self.lines[place], self.rules[found[0]])
                    self.differences[place].rule = found[0]
        for place in added:
            self.differences[place] = Difference(ADDED, self.lines[place], None)
        for line, place in left:
            self.missing.setdefault(place, []).append(Difference(MISSING, None, self.rules[line]))
            self.missing[place][-1].rule = line

    # --- classes ------------------------------------------------------------------------------------------------------------

    def all(self):
        return [one for _, one in self.in_order()]

    def in_order(self):
        """Each difference with the place in `lines` at which it is."""
        found, last = [], -1
        for place in range(len(self.lines) + 1):
            found += [(place, one) for one in self.missing.get(place, ())]
            if place == len(self.lines):
                return found
            one = self.differences[place]
            if one is not None:
                one.after = last
                found.append((place, one))
            last = self.same.get(place, last if one is None or one.rule is None else one.rule)
        return found

    def _find_classes(self, classes):
        """A difference is in a class if the model without that class doesn't have it."""
        for place, names in self.model.noticed.places.items():
            for one in self._at(place):
                if _may_be_noticed(one):
                    one.classes |= names
        named = sorted(name for name in self.model.met if ' ' not in name and name in classes)
        try:
            with time_limit(SECONDS_OF_CLASSES):
                for name in named:
                    if self.all():
                        self._without(name, following(self.engine, classes - {name}, self.script).lines)
        except TooLong:
            self.notes.append('Not every class was looked for: that took more than %d seconds.' % SECONDS_OF_CLASSES)
        before = set()
        for one in self.all():
            if not one.classes and _may_be_noticed(one):
                one.classes |= self.model.noticed
            if not one.classes and before:
                one.follows = before
            elif not one.classes and (one.line or one.rules).startswith('round '):
                one.classes = {'round-lines'}      # a class that can't be left out: rounds that the tool can't tell apart
            before = one.classes or before

    def _at(self, place):
        found = list(self.missing.get(place, ()))
        if place < len(self.differences) and self.differences[place] is not None:
            found.append(self.differences[place])
        return found

    def _without(self, name, lines):
        """Adds the class to the differences that aren't there without it."""
        if lines == self.lines:
            return
        for without, here in zip(*_by_tick(lines, self.lines)):
            other, got = lines[without.start:without.stop], self.lines[here.start:here.stop]
            if other == got:
                continue
            kept = set()
            for block in difflib.SequenceMatcher(None, other, got, autojunk=False).get_matching_blocks():
                kept.update(range(here.start + block.b, here.start + block.b + block.size))
            came = _extra(other, got)
            for place in here:
                one = self.differences[place]
                if one is not None and (place not in kept or one.rules in came):
                    one.classes.add(name)
            for place in range(here.start, here.stop + 1):
                for one in self.missing.get(place, ()):
                    if one.rules in came:
                        one.classes.add(name)

    # --- what the model can't tell --------------------------------------------------------------------------------------------

    def _note_what_is_open(self, text):
        ratios = any(command.name == 'ratio' for command in self.script.commands)
        intersects = any(line.startswith('intersect ') for line in self.lines)
        if self.engine == 'firefox' and _has_parts(self.lines) or self.engine == 'webkit' and intersects and _has_parts(
                [line for line in self.lines if line.startswith('intersect ')]) or self.engine == 'chromium' and ratios:
            self.notes.append("The model can't tell fractions exactly: %s" % _PARTS[self.engine])
        if self.model.orders_frames:
            self.notes.append("The model can't tell one order: %s" % _FRAMES)
        self.arbitrary = set(self.model.in_any_order)
        if self.arbitrary:
            first = min(self.arbitrary) + 1
            self.notes.append("The model can't tell one order, first at line %d of this trace. %s" % (
                first, _ANY_ORDER % ENGINES[self.engine]))

    def is_busy(self, place):
        """Whether something is written, or missing, in the tick that begins at this place."""
        return place + 1 in self.missing or place + 1 < len(self.lines) and not self.lines[place + 1].startswith('tick ')

    @property
    def is_certain(self):
        """Whether the model is sure of every line."""
        return not self.notes

    def summary(self, begins='This is the trace of %s by its model. It'):
        """What the whole comes to, in a sentence."""
        found, begins = self.all(), begins % ENGINES[self.engine]
        if not found:
            return '%s is the one that the rules give.' % begins
        names = sorted({name for one in found for name in one.classes})
        return "%s differs from the rules' in %s%s." % (begins, '1 line' if len(found) == 1 else '%d lines' % len(found),
                                                        ': ' + ', '.join(names) if names else '')

    # --- sentences ------------------------------------------------------------------------------------------------------------

    def told(self, one, seen, place):
        """The lines on a difference; `seen` has the number of the trace's line at which a class was told."""
        name = ENGINES[self.engine]
        said = {CHANGED: 'Differs in %s. By the rules: `%s`' % (name, one.rules), ADDED: 'Only in %s, not by the rules.' % name,
                MISSING: 'Only by the rules, not in %s: `%s`' % (name, one.rules),
                MOVED: '%s has this line at another place than the rules.' % name}[one.kind]
        explained = [said]
        for known in sorted(one.classes):
            if known in seen:
                explained.append('  Class %s: see line %d of this trace.' % (known, seen[known]))
                continue
            seen[known] = place
            explained += self._class(known)
        if one.follows:
            explained.append('  It follows from a difference before it (%s).' % ', '.join(sorted(one.follows)))
        elif not one.classes:
            explained.append('  It is in no single class of docs/BROWSERS.md.')
        return explained

    def _class(self, name):
        row = self.rows.get(name)
        if row is None:
            return ['Class %s.' % name]
        found = ['Class %s. The rule: %s. %s: %s.' % (name, row.rule, ENGINES[self.engine], row.in_engine(self.engine)), row.side()]
        if row.is_of_the_mapping:
            return found + ['A page notices nothing of it: it comes from how a script becomes a page (docs/BROWSERS.md).']
        return found + ['A page notices: %s.' % row.notices]


def _by_tick(one, other):
    """Ranges of two traces that belong together: what comes before the first tick, and each tick."""
    def ranges(lines):
        starts = [0] + [place for place, line in enumerate(lines) if line.startswith('tick ')] + [len(lines)]
        return [range(start, end) for start, end in zip(starts, starts[1:])]
    first, second = ranges(one), ranges(other)
    if len(first) != len(second):
        return [range(len(one))], [range(len(other))]
    return first, second


def _is_same_thing(one, other):
    """Whether two lines are of one kind and about the same things."""
    ours, theirs = one.split(' '), other.split(' ')
    return ours[0] == theirs[0] and ours[1:3] == theirs[1:3] if ours[0] in ('resize', 'intersect', 'event') else ours[:2] == theirs[:2]


def _extra(lines, others):
    """The lines that occur more often in the first list."""
    left = list(others)
    found = []
    for line in lines:
        if line in left:
            left.remove(line)
        else:
            found.append(line)
    return found


def _may_be_noticed(one):
    return (one.line or one.rules).startswith(('event resize', 'event change', 'event scroll', 'frame '))


def _has_parts(lines):
    return any('.' in word for line in lines for word in line.split(' ')[2:] if not line.startswith('event error'))
