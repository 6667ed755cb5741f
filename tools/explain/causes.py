"""Why a line of the trace was written: which elements it is about, and which lines of the script caused it.

Gives to others: `Causes(page)`, which follows the commands of a page's run; explain/runs.py and view/recording.py use it.
"""
from collections import deque

from reference.grammar import every_command
from reference.intersection import Entry
from reference.lint import VERDICTS
from reference.refusals import Limit, Throw
from reference.resize_loop import LoopError, ResizeEntry
from reference.world import Document, Element

MOST_LOOKS = 150000               # checks of observed sizes
MOST_CHANGES = 10                 # changes of one observation between two deliveries
CHANGES_OF_SIZE = VERDICTS[1][1]


class _Watched:
    """An observation that has reported a size: the size now, and the lines of the commands that changed it since."""

    def __init__(self, observer, observation):
        self.observer, self.observation = observer, observation
        self.told = self.size = observation.last_reported
        self.changed_by = []

    def stands(self):
        return self.observer.observations.get(self.observation.target) is self.observation

    def change(self, size, line):
        self.size = size
        if line not in self.changed_by and len(self.changed_by) < MOST_CHANGES:
            self.changed_by.append(line)


class _Viewport:
    """The lines of the commands that changed a document's viewport since its size was noted, or if none did, before that."""

    def __init__(self):
        self.noted, self.size, self.is_old, self.changed_by = None, None, True, []

    def look(self, document, size, line):
        if self.noted != document.noted_size:
            self.noted = self.size = document.noted_size
            self.is_old = True
        if size == self.size:
            return
        self.size = size
        if self.is_old:
            self.is_old, self.changed_by = False, []
        if line not in self.changed_by and len(self.changed_by) < MOST_CHANGES:
            self.changed_by.append(line)


class Causes:
    """Follows the commands of a page's run. `stirred` says that the observations of an element may have changed."""

    def __init__(self, page):
        self.page, self.things = page, page.things
        self.stirred = False
        self.looks, self.unknown_from = 0, None            # the tick from which sizes are no longer checked
        self.watched = {}                                  # an observation's number -> _Watched
        self.viewports = {}                                # a document -> _Viewport
        self.scrolled_by, self.keys, self.posted = {}, {}, deque()
        self.pending = ()
        self.commands = {command.line: command for body in [page.script.commands] + [
            handler.commands for handler in page.script.handlers.values()] for command in every_command(body)}

    # --- commands -------------------------------------------------------------------------------------------------------------

    def before(self, command):
        if command.name in ('scroll', 'scroll-by'):
            self.pending = self._pending()

    def _pending(self):
        return [thing for document in self.page.world.documents for thing in document.pending_scrolls]

    def after(self, command):
        """Notes what a command may cause later; returns the observed sizes that it changed."""
        name, world = command.name, self.page.world
        if name in CHANGES_OF_SIZE:
            self._note_viewports(command)
        if name in ('raf', 'timer'):
            document, key = command.operands[0].value, command.operands[1].value
            self.keys[name, document, key] = command.line
        elif name == 'post':
            self.posted.append(command.line)
        elif name in ('scroll', 'scroll-by'):
            for thing in self._pending():
                if thing not in self.pending:
                    self.scrolled_by[thing] = command.line
        elif name.startswith(('ro-', 'io-')):
            self.stirred = True
        return self._changed_sizes(command) if self.watched and name in CHANGES_OF_SIZE else []

    def _note_viewports(self, command):
        """Notes which documents' viewports this command resized."""
        documents = [document for document in self.page.world.documents if document.noted_size is not None]
        self.looks += len(documents) - 1 if documents else 0
        if self.looks > MOST_LOOKS:
            return
        for document in documents:
            self.viewports.setdefault(document, _Viewport()).look(document, self.page.world.layout.viewport(document), command.line)

    def _changed_sizes(self, command):
        """For the observations that have reported a size: [observer, element, box, width, height, width, height], before and after."""
        if self.unknown_from is not None:
            return []
        self.looks += len(self.watched)
        if self.looks > MOST_LOOKS:
            self.unknown_from = self.page.ticks + 1
            return []
        layout, changes = self.page.world.layout, []
        for number, watched in list(self.watched.items()):
            if not watched.stands():
                del self.watched[number]
                continue
            target, box = watched.observation.target, watched.observation.box
            size = layout.size(target, box)
            if size != watched.size:
                changes.append([watched.observer.name, self.things.element(target), box, *watched.size, *size])
                watched.change(size, command.line)
        return changes

    # --- lines of the trace ---------------------------------------------------------------------------------------------------

    def explain(self, line, about):
        if isinstance(about, tuple):
            explain = self._delivery if isinstance(about[1], ResizeEntry) else self._meeting
            explain(line, *about)
        elif isinstance(about, LoopError):
            self._loop_error(line, about)
        elif isinstance(about, Throw):
            line.causes.append((line.line, 'threw'))
            line.elements += self._named_in(line.line)
        elif isinstance(about, Limit):
            line.causes.append((about.line, 'met it'))
            line.elements += self._named_in(about.line)
        else:
            words = line.text.split(' ')
            self._PLAIN.get(words[0], Causes._nothing)(self, line, words)

    def _delivery(self, line, observer, entry):
        self.stirred = True
        line.elements.append(self.things.element(entry.target))
        observation = observer.observations.get(entry.target)
        if observation is None:
            line.causes.append((observer.line, 'created the observer'))
            return
        line.causes.append((observation.line, 'observes it'))
        line.more = ['told', observation.box]
        watched = self.watched.get(observation.number)
        if watched is not None:
            line.more += watched.told
            line.causes += [(by, 'changed the size') for by in watched.changed_by]
        self.watched[observation.number] = _Watched(observer, observation)

    def _meeting(self, line, observer, entry):
        self.stirred = True
        line.elements.append(self.things.element(entry.target))
        registration = observer.registrations.get(entry.target)
        line.causes.append((registration.line, 'observes it') if registration else (observer.line, 'created the observer'))

    def _loop_error(self, line, error):
        line.more = ['left', error.depth_reached]
        for left in error.skipped:
            number, watched = self.things.element(left.observation.target), self.watched.get(left.observation.number)
            line.elements.append(number)
            changes = watched.changed_by if watched is not None and left.told else []
            line.causes += [(by, 'changed the size') for by in changes] or [(left.observation.line, 'observes it')]
            line.more.append([left.observer.name, number, left.observation.box, left.depth, int(left.told),
                              *left.last_reported, *left.size])
        line.causes = list(dict.fromkeys(line.causes))

    def _named_in(self, number):
        """The elements that a line of the script names."""
        command, found = self.commands.get(number), []
        for operand in command.operands if command is not None else ():
            if operand.value == '$target' and self.page.entry is not None:
                found += self._shown_for(self.page.entry.target)
            elif isinstance(operand.value, str):
                found += self._shown_for(self.page.world.names.get(operand.value))
        return found

    def _shown_for(self, thing):
        """The element for a thing: for a document, its root element."""
        if isinstance(thing, Document):
            thing = thing.root
        return [self.things.element(thing)] if isinstance(thing, Element) else []

    def _nothing(self, line, words):
        pass

    def _keyed(self, line, words):
        by = self.keys.get(('raf' if words[0] == 'frame' else 'timer', words[1], words[2]))
        line.causes += [(by, 'requested it')] if by else []

    def _task(self, line, words):
        """The last of the posted tasks that have been taken; those before it were of documents that aren't Active."""
        while len(self.posted) > self.page.world.posted_held:
            line.causes = [(self.posted.popleft(), 'posted it')]

    def _event(self, line, words):
        world = self.page.world
        if words[1] == 'scroll':
            thing = world.names[words[2]]
            line.causes += [(self.scrolled_by[thing], 'scrolled')] if thing in self.scrolled_by else []
            line.elements += self._shown_for(thing)
        elif words[1] == 'change':
            queries = world.names[words[2]]
            line.causes.append((queries.line, 'created the query list'))
            line.causes += self._resized(queries.document)
        elif words[1] == 'resize':
            document = world.names[words[2][1:]]
            line.causes += self._resized(document)
            known = self.viewports.get(document)
            if known is not None and known.noted is not None:
                line.more = ['viewport', *known.noted, *document.noted_size]

    def _resized(self, document):
        """The commands that resized a document's viewport last."""
        known = self.viewports.get(document)
        return [(by, 'resized the viewport') for by in known.changed_by] if known is not None else []

    def _written(self, line, words):
        line.causes.append((line.line, 'wrote it'))
        if words[0] == 'read':
            line.elements += self._shown_for(self.page.world.names.get(words[1]))

    _PLAIN = {'timer': _keyed, 'frame': _keyed, 'task': _task, 'event': _event, 'read': _written, 'take': _written, 'say': _written}
