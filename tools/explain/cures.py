"""Ways to change a script so that its loop errors don't occur. Each is applied to a copy of the script, which is run, and kept only if no
loop error is left and everything else ends as before.

Gives to others: `Cures(script, commands, faults).kept`, a list of Cure; `Cure.told()`, the lines that say what to change, and
`Cure.applied(text)`, the changed script.
"""
from reference import available, grammar, program, update
from reference.comparing import TooLong, time_limit
from reference.lengths import px
from reference.lexer import Fault, TextLimit
from reference.page import Page
from reference.refusals import Limit, Throw
from reference.resize_loop import LoopError

from . import runs

SECONDS = 12                      # of processor time, for all cures together
TICKS_AFTER = 4                   # ticks after the script's end, in which it may come to rest
FRAME = 16
MOST_EDITS = 60                   # lines that a cure may change
MOST_BOXES = 20000                # boxes at the end of all ticks, for the cures that must leave each of them as it is


class Edits:
    """Lines put before a line, instead of it, after it, and at the end."""

    def __init__(self):
        self.before, self.instead, self.after, self.added = {}, {}, {}, []

    def lines(self):
        return sorted({*self.before, *self.instead, *self.after})

    def applied(self, text):
        """The changed script's bytes."""
        lines = text.split(b'\n')
        while lines and not lines[-1].strip():
            lines.pop()
        found = []
        for number, line in enumerate(lines, 1):
            found += self.before.get(number, []) + self.instead.get(number, [line]) + self.after.get(number, [])
        return b'\n'.join([line if isinstance(line, bytes) else line.encode() for line in found + self.added]) + b'\n'

    def told(self):
        """What to change, line by line."""
        found = []
        for number in self.lines():
            for where, lines in (('before line %d, add', self.before), ('line %d becomes', self.instead),
                                 ('after line %d, add', self.after)):
                if lines.get(number):
                    found += ['  ' + where % number] + ['    ' + line for line in lines[number]]
                elif number in lines:
                    found.append('  line %d is left out' % number)
        return found + (['  at the end, add'] + ['    ' + line for line in self.added] if self.added else [])


class Cure:
    """A way to mend the script: its name, what it does and what it costs, each in a sentence, and its edits."""

    def __init__(self, name, does, costs, edits):
        self.name, self.does, self.costs, self.edits = name, does, costs, edits

    def applied(self, text):
        return self.edits.applied(text)

    def told(self):
        return self.edits.told()

    def as_object(self):
        return {'name': self.name, 'does': self.does, 'costs': self.costs, 'changes': [line[2:] for line in self.told()]}


class Left:
    """An observation that a loop left undelivered, and the commands that changed its size, each with its text."""

    def __init__(self, document, left, changes):
        self.document, self.observer, self.target = document, left.observer, left.observation.target
        self.box, self.line, self.told = left.observation.box, left.observation.line, left.told
        self.last_reported, self.size, self.changes = left.last_reported, left.size, changes


# --- how a run ends ------------------------------------------------------------------------------------------------------------

class _Run(Page):
    """A script's run with some ticks after its end, and what is so at the end of it."""

    def __init__(self, text):
        self.errors, self.throws, self.lines, self.last = 0, 0, [], 0
        self.by_tick, self.boxes = [], 0
        Page.__init__(self, grammar.parse(text, available.LANGUAGE), self._note)
        self.status = program.DONE if self.run() else program.LIMIT
        self.in_script, self.before_last = len(self.lines), {}
        if self.status == program.DONE:
            for _ in range(TICKS_AFTER):
                self.before_last, self.last = self.end(), len(self.lines)
                self._tick()

    def _note(self, text, line, about):
        self.lines.append(text)
        self.errors += isinstance(about, LoopError)
        self.throws += isinstance(about, Throw)

    def run_command(self, command):
        threw = Page.run_command(self, command)
        if command.name == 'tick' and self.boxes <= MOST_BOXES:
            self.boxes += self.world.elements_made
            self.by_tick.append({key: value for key, value in self.end().items() if key[0] == 'box'})
        return threw

    def _tick(self):
        try:
            update.tick(self, None, self.world.clock + FRAME)
        except Limit:
            self.status = program.LIMIT

    def rests(self):
        """Whether nothing was reported in the last tick."""
        return len(self.lines) == self.last + 1

    def end(self):
        """What is so at the end, by name: boxes and scroll positions, what was reported last, and states."""
        world, found = self.world, {}
        for name, thing in world.names.items():
            if thing.what == 'element':
                has_box = world.layout.has_box(thing)
                found['box', name] = (world.layout.border_rectangle(thing), thing.scroll) if has_box else None
            elif thing.what == 'document':
                found['box', name] = thing.scroll, thing.state
            elif thing.what == 'query list':
                found['state', name] = thing.state
        for document in world.documents:
            for observer in document.resize_observers:
                found.update({('size', observer.name, target.name): observation.last_reported
                              for target, observation in observer.observations.items()})
        for observer in world.intersection_observers:
            found.update({('seen', observer.name, target.name): (one.meets, one.index) for target, one in observer.registrations.items()})
        return found


def _differs(end, other, without):
    """What ends differently in the copy, in words, or None; what is in `without` isn't compared."""
    words = {'box': 'another box', 'size': 'another reported size', 'seen': 'another intersection',
             'state': 'another state of a query list'}
    for key, value in end.items():
        if key in without:
            continue
        if key not in other:
            return 'it is no longer observed' if key[0] in ('size', 'seen') else 'an element is missing'
        if other[key] != value:
            return '%s of `%s` at the end' % (words[key[0]], key[-1])
    return None


# --- the cures -----------------------------------------------------------------------------------------------------------------

class Cures:
    """The cures of all loop errors of a run; `lefts` are what they left undelivered. `kept` are those that work, `refused` the names of
    the others with the reason."""

    def __init__(self, script, commands, lefts):
        self.script, self.commands, self.lefts = script, commands, lefts
        self.kept, self.refused, self.is_late = [], [], False
        self.texts = self._texts()
        try:
            with time_limit(SECONDS):
                self.first = _Run(script.text)
                self.ends = self.first.end()
                for make in (self._by_task, self._by_frame, self._probe, self._room, self._other_box, self._again, self._guard):
                    self._try(make)
        except TooLong:
            self.is_late = True

    def _texts(self):
        """Each line of a handler that causes an error -> the texts with which it did, in order; and the document that it was in."""
        texts = {}
        for left in self.lefts:
            for line, text in ([(change.line, change.text) for change in left.changes] if left.told else [(left.line, None)]):
                if line in self.commands.handler_of:
                    known = texts.setdefault(line, [left.document.name])
                    text = text or self.commands.text_of(line)
                    if text not in known[1:]:
                        known.append(text)
        return texts

    def _try(self, make):
        """Keeps the first of the cures of one kind that works, or why none does."""
        reason, name = None, None
        for cure in make():
            if len(cure.edits.lines()) + len(cure.edits.added) > MOST_EDITS:
                continue
            name, found = cure.name, self._why_not(cure)
            if found is None:
                self.kept.append(cure)
                return
            reason = reason or found
        if name is not None:
            self.refused.append((name, reason))

    def _why_not(self, cure):
        """Why a cure isn't kept, or None."""
        text = cure.applied(self.script.text)
        try:
            run = _Run(text)
        except (Fault, TextLimit):
            return 'the changed script is no script'
        if run.status != program.DONE and self.first.status == program.DONE:
            return 'it meets a limit'
        if run.errors:
            return 'the error remains' if run.errors >= self.first.errors else '%d of %d errors remain' % (run.errors, self.first.errors)
        if run.throws > self.first.throws:
            return 'it throws'
        if self.first.rests() and not run.rests():
            return 'the handler then runs at every update'
        if cure.name == GUARD and (run.by_tick != self.first.by_tick or run.boxes > MOST_BOXES):
            return 'the change is then missing'
        is_other = cure.name in (PROBE, OTHER_BOX)
        without = {('size', left.observer.name, left.target.name) for left in self.lefts} if is_other else set()
        end = run.end()
        differs = _differs(self.ends, end, without)
        if differs and not self.first.rests() and not _differs(self.first.before_last, end, without):
            differs = None                                     # it is an update late
        return differs or self._by_the_program(text, run)

    @staticmethod
    def _by_the_program(text, run):
        """The proved program has to agree, if it is built."""
        if not runs.is_built():
            return None
        proved = runs.Proved(text)
        is_same = proved.status == run.status and proved.lines == run.lines[:run.in_script]
        return None if is_same else 'the proved program gives another trace'

    # --- later ----------------------------------------------------------------------------------------------------------------

    def _groups(self):
        """The lines that cause errors, those together that follow one another in one block of a handler."""
        groups = []
        for handler in dict.fromkeys(self.commands.handler_of[line] for line in sorted(self.texts)):
            for body in _bodies(handler.commands):
                last = None
                for command in body:
                    if command.line not in self.texts:
                        last = None
                    elif last is None:
                        last = [command.line]
                        groups.append(last)
                    else:
                        last.append(command.line)
        return groups

    def _later(self, calls, is_once=False):
        """Edits by which the lines run in handlers of their own; `calls` gives the lines that request such a handler. If it is once, what is
        in an `each` is requested before it, and so once for all targets."""
        edits, groups, taken = Edits(), self._groups(), self._names()
        for group in groups:
            name = _fresh('later', taken)
            edits.instead.update({line: [] for line in group})
            outermost, request = self._outermost(group[0]), calls(self.texts[group[0]][0], name)
            if is_once and outermost != group[0]:
                edits.before.setdefault(outermost, []).extend(request)
            else:
                edits.instead[group[0]] = request
            edits.added += ['handler ' + name] + [text for line in group for text in self.texts[line][1:]] + ['end']
        return edits if groups else None

    def _outermost(self, line):
        """The line of the command of its handler that this line is in, or is."""
        return next(command.line for command in self.commands.handler_of[line].commands
                    if any(inner.line == line for inner in grammar.every_command([command])))

    def _names(self):
        """All names in use."""
        bodies = [self.commands.script.commands] + [handler.commands for handler in self.commands.script.handlers.values()]
        used = {operand.value for body in bodies for command in grammar.every_command(body) for operand in command.operands
                if isinstance(operand.value, str)}
        return used | set(self.commands.script.handlers)

    def _by_task(self):
        for is_once in (False, True):
            edits = self._later(lambda document, name: ['post %s %s' % (document, name)], is_once)
            if not edits:
                return
            yield Cure('later, by a task', 'the handler posts a task (`setTimeout` in a page) that makes the change after this update.',
                       'the page is drawn once with the old size, and the new one is reported an update later.', edits)

    def _by_frame(self):
        costs = 'the page is drawn once with the old size, and the new one is reported an update later, before that is drawn.'
        for calls in (lambda document, name: ['raf %s %s %s' % (document, name, name)],
                      lambda document, name: ['cancel-raf %s %s' % (document, name), 'raf %s %s %s' % (document, name, name)]):
            edits = self._later(calls)
            if edits:
                yield Cure('later, by a frame callback', 'the handler requests a frame callback (`requestAnimationFrame`) that makes the '
                           'change in the next update.', costs, edits)

    # --- what is observed -----------------------------------------------------------------------------------------------------

    def _observed(self):
        """The observations that were left, once each, if a line outside handlers observes an element by its name."""
        found = {}
        for left in self.lefts:
            command = self.commands.by_line[left.line]
            is_inside = left.line in self.commands.handler_of or self.commands.outermost_of[left.line] is not command
            if is_inside or command.name != 'ro-observe':
                return []
            found.setdefault((left.observer.name, left.target.name), left)
        return list(found.values())

    def _probe(self):
        """An element without height in each target, which is observed instead: it has the target's content width."""
        lefts = self._observed()
        if not lefts or any(left.last_reported[0] != left.size[0] or left.target.kind != 'block' for left in lefts):
            return
        for is_named in (False, True):
            edits, taken = Edits(), self._names()
            for left in lefts:
                name = _fresh('probe', taken)
                edits.before.setdefault(left.line, []).extend(['block %s %s' % (name, left.target.document.name),
                                                               'append %s %s' % (left.target.name, name)])
                edits.instead[left.line] = ['ro-observe %s %s %s' % (left.observer.name, name, left.box)]
                if is_named:
                    self._name_target(left, edits)
            yield Cure(PROBE, 'an empty element in %s is observed instead; it is as wide, and its own size never depends on what the '
                       'handler changes.' % _named([left.target.name for left in lefts]),
                       'one element more for each, and only its width is reported.', edits)

    def _name_target(self, left, edits):
        """The handler names the target instead of `$target`, if it is the only one."""
        handler = left.observer.handler
        for command in grammar.every_command(handler.commands if handler else []):
            text = self.commands.text_of(command.line)
            if '$target' in text.split(' '):
                edits.instead[command.line] = [' '.join([left.target.name if word == '$target' else word for word in text.split(' ')])]

    def _room(self):
        """A size that doesn't depend on the content, if a command on something in the target changed it."""
        lefts, edits, layout = self._observed(), Edits(), self.first.world.layout
        for left in lefts:
            target = self.first.world.names.get(left.target.name)
            if any(change.text.split(' ')[1] == left.target.name for change in left.changes):
                return                                         # its own properties change it, and not its content
            if target is None or target.kind != 'block' or not layout.has_box(target) or left.last_reported[1] == left.size[1]:
                return
            whole = target.style['box-sizing'] == 'border-box'
            height = px(layout.border_size(target)[1] if whole else layout.height(target))
            if len(height.partition('.')[2]) > 2:
                return
            edits.before.setdefault(left.line, []).append('set %s min-height %spx' % (target.name, height))
        if lefts:
            yield Cure("a size that doesn't depend on the content", 'the room is kept free from the start, so the '
                       'change leaves the size as it is.', 'the room is taken even while nothing fills it, and the number has to be kept '
                       'up to date by hand.', edits)

    def _other_box(self):
        lefts, edits = self._observed(), Edits()
        for left in lefts:
            other = {'content': 'border', 'border': 'content'}.get(left.box)
            if other is None:
                return
            edits.instead[left.line] = ['ro-observe %s %s %s' % (left.observer.name, left.target.name, other)]
        if lefts:
            yield Cure(OTHER_BOX, 'the box is observed that the handler leaves as it is.',
                       'a change of the other box is no longer reported.', edits)

    # --- commands around the change -------------------------------------------------------------------------------------------

    def _again(self):
        """The handler unobserves the target, and a task observes it again."""
        edits, taken = Edits(), self._names()
        for group in self._groups():
            lefts = {(left.observer.name, left.target.name): left for left in self.lefts
                     if left.told and any(change.line in group for change in left.changes)}
            name = _fresh('again', taken)
            edits.after[group[-1]] = ['ro-unobserve %s %s' % known for known in lefts] + ['post %s %s' % (self.texts[group[0]][0], name)]
            edits.added += ['handler ' + name] + ['ro-observe %s %s %s' % (*known, left.box) for known, left in lefts.items()] + ['end']
        if edits.after:
            yield Cure('unobserve, and observe again later', 'the handler unobserves what it changes, and a task observes it again.',
                       'a new observation always reports once, so the handler runs once more for each change.', edits)

    def _guard(self):
        """The change is made only while a condition on the target's size holds."""
        for asked in ('when not wider', 'when wider', 'when not taller', 'when taller'):
            for at in (0, 1):
                edits, axis = Edits(), 'taller' in asked
                for line, (change, target) in self._changes().items():
                    size = px((change.before, change.after)[at][axis])
                    if len(size.partition('.')[2]) <= 2:
                        edits.before[line], edits.after[line] = ['%s %s %spx' % (asked, target, size)], ['end']
                if edits.before:
                    yield Cure(GUARD, 'the change is made only while it is needed.', 'a condition to be kept up to date by hand.', edits)

    def _changes(self):
        return {change.line: (change, left.target.name) for left in self.lefts for change in left.changes
                if change.line in self.commands.handler_of}


PROBE, OTHER_BOX, GUARD = 'a probe', 'the other box', 'a guard'


def _bodies(commands):
    """A list of commands and the blocks in it."""
    yield commands
    for command in commands:
        if command.body:
            yield from _bodies(command.body)


def _fresh(stem, taken):
    """A name that isn't taken, which is taken from now on."""
    name, number = stem, 1
    while name in taken:
        number += 1
        name = '%s%d' % (stem, number)
    taken.add(name)
    return name


def _named(names):
    return ', '.join(['`%s`' % name for name in names])
