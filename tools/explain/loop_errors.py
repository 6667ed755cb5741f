"""Lines `event error`: each observation that a resize loop left undelivered, what changed its size, a fix, and the line that
`--lint` names in advance.

What changed a size is found by a second run of the reference, which looks at the sizes of those targets after each command
of a loop handler.
"""
from reference import lint
from reference.layout import DEVICE
from reference.page import Page
from reference.resize_loop import LoopError, ResizeEntry

from . import cures
from .wording import counted, size

MOST_ERRORS = 100


class Change:
    """A command in a loop handler that changed the size of an observed target; `text` has the name for `$target`."""

    def __init__(self, line, text, before, after):
        self.line, self.text, self.before, self.after = line, text, before, after


class WatchingPage(Page):
    """A page that notes which commands change the sizes of some observations between their report and a loop error."""

    def __init__(self, parsed, script, watched):
        Page.__init__(self, parsed, self.note)
        self.source, self.watched = script, watched      # (observer's name, target's name) pairs
        self.sizes, self.changes, self.found = {}, {}, []

    def note(self, text, line, about):
        if isinstance(about, tuple) and isinstance(about[1], ResizeEntry):
            self._start(about[0], about[1].target)
        elif isinstance(about, LoopError):
            self.found.append({(left.observer.name, left.observation.target.name):
                               self.changes.get(left.observation.number, []) for left in about.skipped})

    def _start(self, observer, target):
        """A target was reported: what changed it before doesn't count any more."""
        observation = observer.observations.get(target)
        if observation is not None and (observer.name, target.name) in self.watched:
            self.sizes[observation.number] = observation.last_reported
            self.changes[observation.number] = []

    def do(self, command):
        Page.do(self, command)
        if self.entries and isinstance(self.entries[0], ResizeEntry) and command.name in lint.VERDICTS[1][1]:
            for observer_name, target_name in self.watched:
                self._look(command, observer_name, target_name)

    def _look(self, command, observer_name, target_name):
        observer, target = self.world.names.get(observer_name), self.world.names.get(target_name)
        observation = observer.observations.get(target) if observer is not None and target is not None else None
        if observation is None:
            return
        now = self.world.layout.size(target, observation.box)
        before = self.sizes.get(observation.number)
        self.sizes[observation.number] = now
        if before is not None and now != before:
            text = self.source.command(command.line)
            if self.entry is not None:
                text = text.replace('$target', self.entry.target.name)
            self.changes.setdefault(observation.number, []).append(Change(command.line, text, before, now))


class Explainer:
    """Explains the loop errors of one run."""

    def __init__(self, script, commands, told):
        self.script, self.commands = script, commands
        self.cures, self.cured_at = None, None               # those of all errors, and the number of the trace's line that has them
        errors = [line.about for line in told if isinstance(line.about, LoopError)][:MOST_ERRORS]
        self.count = sum([isinstance(line.about, LoopError) for line in told])
        watched = {(left.observer.name, left.observation.target.name) for error in errors for left in error.skipped}
        page = WatchingPage(commands.script, script, sorted(watched))
        page.run()
        self.changes = dict(zip(errors, page.found))         # a loop error -> what changed the sizes that it left

    def explain(self, told, place):
        """The lines of the explanation; `place` is the number of the trace's line."""
        error = told.about
        changes = self.changes.get(error, {})
        explained = ['The resize loop of `%s` reached depth %d and left %s undelivered: after a round, only deeper targets are '
                     'delivered in the same update.' % (error.document.name, error.depth_reached,
                                                        counted(len(error.skipped), 'observation'))]
        causes = set()
        for left in error.skipped:
            found = changes.get((left.observer.name, left.observation.target.name), [])
            explained += self._left(left, found, error.depth_reached)
            causes |= {change.line for change in found} if left.told else {left.observation.line}
        return explained + self._cure(place) + self._predicted(causes, place)

    def all_cures(self):
        """The cures of all errors of the run."""
        if self.cures is None:
            self.cures = cures.Cures(self.script, self.commands, [
                cures.Left(error.document, left, changes.get((left.observer.name, left.observation.target.name), []))
                for error, changes in self.changes.items() for left in error.skipped])
        return self.cures

    def _cure(self, place):
        """The cures, or the line of the trace that has them already."""
        if self.cured_at is not None:
            return ['Cures: see line %d of this trace.' % self.cured_at]
        self.cured_at = place
        found = self.all_cures()
        explained = [self._kept_said(found)]
        for number, cure in enumerate(found.kept, 1):
            explained += ['Cure %d, %s: %s' % (number, cure.name, cure.does)] + cure.told() + ['It costs: %s' % cure.costs]
        if found.kept:
            explained.append('`bin/explain --cure NUMBER SCRIPT` writes the changed script.')
        if found.refused:
            explained.append('Tried and not kept: %s.' % '; '.join(['%s (%s)' % one for one in found.refused]))
        if found.is_late:
            explained.append('Not every cure was tried: that took more than %d seconds of processor time.' % cures.SECONDS)
        return explained

    def _kept_said(self, found):
        these = 'this event' if self.count == 1 else 'any of these %d events' % self.count
        if not found.kept:
            return ('No change that was tried mends the script. Move what changes the size to a handler that is run by `post` or '
                    '`raf`, and name the elements there: a task has no `$target`.')
        many = ('1 cure was', 'it') if len(found.kept) == 1 else ('%d cures were' % len(found.kept), 'each of them')
        return ('%s found by trying on copies of the script: with %s, the script runs without %s, and all else ends as before.'
                % (*many, these))

    def _left(self, left, changes, reached):
        target = left.observation.target
        explained = ['Undelivered: `%s` observes the %s.' % (left.observer.name, _box(left.observation.box, target.name)),
                     '  depth:         %d, and the loop had reached %d' % (left.depth, reached),
                     '  last reported: %s' % (_size(left.observation.box, left.last_reported) if left.told else
                                              'nothing; a new observation counts as having reported 0 by 0'),
                     '  current size:  %s' % _size(left.observation.box, left.size)]
        if not left.told:
            explained.append('  observed:      in the loop, by line %d, `%s`%s' % (
                left.observation.line, self.commands.text_of(left.observation.line), self._of(left.observation.line)))
        for line, text, times in _by_lines(changes):
            again = '' if times == 1 else ', %d times' % times
            explained.append('  changed by:    line %d, `%s`%s%s' % (line, text, self._of(line), again))
            explained += self._how(line, target)
        return explained

    def _of(self, line):
        handler = self.commands.handler_of.get(line)
        return '' if handler is None else ', in the handler `%s`' % handler.name

    def _how(self, line, target):
        """Why a command on another element changes this one's size."""
        command = self.commands.by_line[line]
        named = [operand.value for operand in command.operands if operand.form.shown == 'NODE']
        if command.name in ('set', 'grow', 'load') and named[0] not in (target.name, '$target'):
            return ['                 (the size of `%s` depends on that of `%s`, through an automatic size or a percentage)' % (
                target.name, named[0])]
        return []

    def _predicted(self, lines, place):
        blamed = lint.blamed(self.commands.script, lint.VERDICTS[1][1])
        if not blamed or place != self.cured_at:
            return []
        here = blamed[0] in lines
        return ['`bin/replay --lint` predicts it: `unquiet %d` names %s (docs/LOOPS.md).' % (
            blamed[0], 'this line' if here else 'the first of %s in loop handlers that may cause it'
            % counted(len(blamed), 'command'))]


def _box(box, name):
    return 'content box of `%s` in device pixels' % name if box == DEVICE else '%s box of `%s`' % (box, name)


def _size(box, lengths):
    return '%d by %d' % lengths if box == DEVICE else size(lengths)


def _by_lines(changes):
    """(line, text, how often), in the order in which they come first."""
    counted_ = {}
    for change in changes:
        counted_[change.line, change.text] = counted_.get((change.line, change.text), 0) + 1
    return [(line, text, times) for (line, text), times in counted_.items()]
