"""A reason under every line that isn't explained at length: why a size was reported and by what it changed, what made a round go deeper,
why an event was fired, which line requested a callback, and which one wrote a word.

Gives to others: `Reasons(commands, told, ended)`, whose `of(place)` are the sentences on the line at that place of the trace.
"""
from reference.layout import DEVICE

from .wording import counted, listed, quoted, size

MOST_COMMANDS = 3
_WROTE = {'say': 'Written by %s.', 'read': 'Read by %s.', 'take': 'Taken by %s.'}
_NOTHING = ('Nothing is reported: no timer was due, no observed size differs from the last reported one, no target came into view or left '
            'it, and no callback or task was waiting.')


class Reasons:
    """The reasons for the lines of one run."""

    def __init__(self, commands, told, ended):
        self.commands, self.told, self.ended = commands, told, ended
        self.round_of = {}                # the place of a `resize` line or a `round` line -> which round of its loop it is in
        self.least_before = {}            # the same -> the least depth of the round before
        self._number_rounds()

    def _number_rounds(self):
        """Finds the rounds of each document's loop in each tick."""
        count, least, waiting = {}, {}, []
        for place, told in enumerate(self.told):
            words = told.text.split(' ', 2)
            if words[0] == 'resize' and told.document is not None:
                waiting.append((place, told.document))
            elif words[0] == 'round':
                for one in [place for place, document in waiting if document == words[1]] + [place]:
                    self.round_of[one], self.least_before[one] = count.get(words[1], 0) + 1, least.get(words[1])
                waiting = [one for one in waiting if one[1] != words[1]]
                count[words[1]], least[words[1]] = count.get(words[1], 0) + 1, int(words[2])
            elif words[0] == 'tick':
                count, least, waiting = {}, {}, []

    def of(self, place):
        told = self.told[place]
        word = told.text.split(' ', 1)[0]
        if word in _WROTE:
            return [_WROTE[word] % self._command(told.line)] if told.line else []
        found = _BY_KIND.get(word)
        return found(self, told, place) if found is not None else []

    # --- commands of the script ---------------------------------------------------------------------------------------------

    def _command(self, line):
        """A line of the script with its command, and the handler that it is in."""
        handler = self.commands.handler_of.get(line)
        return 'line %d, `%s`%s' % (line, self.commands.text_of(line), '' if handler is None else ', in the handler `%s`' % handler.name)

    def _commands(self, lines):
        lines = list(dict.fromkeys(lines))
        more = ['%d more' % (len(lines) - MOST_COMMANDS)] if len(lines) > MOST_COMMANDS else []
        return listed([self._command(line) for line in lines[:MOST_COMMANDS]] + more)

    def _by(self, told, word):
        return [line for line, said in told.causes if said == word]

    # --- sizes and rounds ---------------------------------------------------------------------------------------------------

    def _resize(self, told, place):
        observes, changed = self._by(told, 'observes it'), self._by(told, 'changed the size')
        target = told.text.split(' ', 3)[2]
        explained = []
        if len(told.more or ()) > 2:
            explained.append('%s was last reported as %s.%s' % (_box(told.more[1], target), _size(told.more[1], told.more[2:]),
                                                                ' Changed by %s.' % self._commands(changed) if changed else ''))
            explained += self._through(changed, target)
        elif observes:
            explained.append('Reported for the first time: `%s` is observed by %s.' % (target, self._commands(observes)))
        else:
            explained.append('`%s` was unobserved after this entry was due.' % target)
        if self.round_of.get(place, 1) > 1:
            explained.append(self._deeper(place, told.depth, self.least_before[place]))
        return explained

    def _deeper(self, place, depth, before):
        """Why a target is in a round after the first."""
        said = 'It is in round %d because its depth' % self.round_of[place]
        if depth > before:
            return '%s, %d, is greater than that of the round before, %d.' % (said, depth, before)
        return '%s was greater than that of the round before, %d, as the round began; it has been moved to depth %d since.' % (
            said, before, depth)

    def _through(self, lines, target):
        """Why commands on other elements changed this one's size."""
        others = []
        for line in dict.fromkeys(lines):
            command = self.commands.by_line[line]
            named = [operand.value for operand in command.operands if operand.form.shown == 'NODE']
            if command.name in ('set', 'grow', 'load') and named and named[0] not in (target, '$target'):
                others.append(named[0])
        others = list(dict.fromkeys(others))
        if not others:
            return []
        return ['(The size of `%s` depends on that of %s, through an automatic size or a percentage.)' % (target, quoted(others))]

    def _round(self, told, place):
        _, document, least = told.text.split(' ')
        entries = [self.told[one] for one in self._entries_of(place)]
        if not entries:
            return []
        shallowest = [one.text.split(' ', 3)[2] for one in entries if one.depth == int(least)]
        number = self.round_of.get(place, 1)
        if len(entries) == 1 and shallowest:
            said = '1 size, for `%s` at depth %s' % (shallowest[0], least)
        else:
            said = '%s; the least depth is %s%s' % (counted(len(entries), 'size'), least, ', that of %s' % quoted(
                list(dict.fromkeys(shallowest)), 3) if shallowest else '')
        return ['Round %d of this loop delivered %s. %s' % (number, said, self._next(place, document))]

    def _entries_of(self, place):
        """The places of the `resize` lines of a round, backwards from its line."""
        document, found, one = self.told[place].text.split(' ')[1], [], place - 1
        while one >= 0 and not self.told[one].text.startswith(('tick ', 'round %s ' % document)):
            if self.told[one].text.startswith('resize ') and self.told[one].document == document:
                found.insert(0, one)
            one -= 1
        return found

    def _next(self, place, document):
        """What comes of the loop after a round."""
        after = self.told[place + 1] if place + 1 < len(self.told) else None
        if after is not None and after.text.startswith('resize ') and after.document == document:
            return 'Another round follows, as the size of something deeper has changed since.'
        if after is not None and after.text.startswith('event error @%s ' % document):
            return 'Of what is deeper no size has changed since, but another one has: the loop ends with the error.'
        return 'Of what is deeper no size has changed since, so the loop ends.'

    # --- events and callbacks -----------------------------------------------------------------------------------------------

    def _event(self, told, place):
        words = told.text.split(' ')
        if words[1] == 'scroll':
            by = self._by(told, 'scrolled')
            return ['Scrolled since the last update by %s.' % self._commands(by)] if by else []
        if words[1] not in ('resize', 'change'):
            return []
        by = self._by(told, 'resized the viewport')
        because = ' Resized by %s.' % self._commands(by) if by else ''
        if words[1] == 'resize':
            return ['%s%s' % (self._viewport(told, words[2][1:]), because)]
        queries = self._by(told, 'created the query list')
        return ['The query list, %s, %s.%s' % (
            self._commands(queries), 'matches now and did not at the last update' if words[3] == 'true'
            else 'no longer matches, as it did at the last update', because)]

    @staticmethod
    def _viewport(told, document):
        if told.more and told.more[0] == 'viewport':
            return 'The viewport of `%s` is %s; at the last update it was %s.' % (document, size(told.more[3:5]), size(told.more[1:3]))
        return 'The viewport of `%s` has another size than at the last update.' % document

    def _called(self, told, place):
        requested, posted = self._by(told, 'requested it'), self._by(told, 'posted it')
        if requested:
            return ['%s by %s.' % ('Set' if told.text.startswith('timer ') else 'Requested', self._commands(requested))]
        return ['Posted by %s.' % self._commands(posted)] if posted else []

    def _tick(self, told, place):
        after = self.told[place + 1].text if place + 1 < len(self.told) else None
        is_quiet = self.ended if after is None else after.startswith('tick ')
        return [_NOTHING] if is_quiet else []


def _box(box, target):
    return {DEVICE: 'The content box of `%s` in device pixels', 'content': 'The content box of `%s`', 'border': 'The border box of `%s`'}[
        box] % target


def _size(box, lengths):
    return '%d by %d' % tuple(lengths) if box == DEVICE else size(lengths)


_BY_KIND = {'resize': Reasons._resize, 'round': Reasons._round, 'event': Reasons._event, 'timer': Reasons._called,
            'frame': Reasons._called, 'task': Reasons._called, 'tick': Reasons._tick}
