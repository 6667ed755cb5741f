"""The script of a recording: the elements that are observed with what is around them, each change before its update, what callbacks did
as handlers, and a line on all that the language can't tell."""
from reference import media
from reference.lengths import UNITS_PER_PIXEL

from . import naming
from .boxes import NO_EDGES, Boxes, Need, document_of, length, units
from .handlers import Done, Handler, History


class Script:
    """The script of a recording, with the names that it gives."""

    def __init__(self, recording):
        self.recording, self.names = recording, naming.Names()
        self.notes = []
        self.need = Need(recording)
        self.boxes = Boxes(recording, self.need, self.note)
        self.elements, self.observers, self.media, self.updates = {}, {}, {}, []
        self.documents = {0: 'top'}
        self.history, self.done = History(), {}
        self.made, self.attached, self.given, self.offsets, self.reaches = set(), {}, {}, {}, {}
        self.out, self.parts, self.ticks, self.first = [], [], [], None
        self._name()
        self._play()

    def note(self, sentence):
        if sentence not in self.notes:
            self.notes.append(sentence)

    # --- names ---------------------------------------------------------------------------------------------------------------

    def _name(self):
        for key in sorted(self.need.boxes):
            self.elements[key] = self.names.give(naming.of_element(self.recording.elements[key]['name']), 'e')
        for frame, numbers in self.need.framed.items():
            for number in numbers:
                self.documents[number] = self.names.give(self.elements.get(frame, 'frame') + '-page', 'page')
            if len(numbers) > 1:
                self.note('%s had %d pages one after the other; the script has only the last one' % (
                    self.recording.elements[frame]['name'], len(numbers)))
        for key, row in self.recording.observers.items():
            self.observers[key] = self.names.give(row['callback'] or ('sizes' if row['kind'] == 'resize' else 'sight'), 'o')

    def element(self, key):
        """An element's name; it is made if it isn't there yet."""
        if key not in self.elements:
            self.elements[key] = self.names.give(naming.of_element(self.recording.elements[key]['name']), 'e')
        if key not in self.made:
            self.made.add(key)
            row = self.recording.elements[key]
            home = self.documents.get(row['document'], 'top')
            if key in self.need.framed:
                self.say('frame', self.elements[key], home, self.documents[self.need.framed[key][-1]], about=row['name'])
            else:
                self.say('block', self.elements[key], home, about=row['name'])
        return self.elements[key]

    # --- commands ------------------------------------------------------------------------------------------------------------

    def say(self, *words, about=None):
        self.out.append((list(words), about))

    def set(self, name, prop, value):
        if self.given.get((name, prop), INITIAL.get(prop)) != value:
            self.given[name, prop] = value
            self.history.set(name, prop, value)
            self.say('set', name, prop, value)

    # --- the run -------------------------------------------------------------------------------------------------------------

    def _is_told(self, update):
        """Whether an update has something that the script tells; otherwise what came before it comes before the next one."""
        return bool(update.calls or update.found) or any(self.tells(row) for row in update.events)

    def tells(self, row):
        """Whether an event is one of the script's."""
        if row['what'] == 'resize':
            return row['document'] in self.documents
        if row['what'] == 'change':
            return self.is_known(self.recording.media[row['media']])
        number = document_of(row['target'])
        return number in self.documents if number is not None else row['target'] in self.need.matter

    def is_known(self, row):
        """Whether a media query is one of the language."""
        text = row['query'].strip()
        return row['document'] in self.documents and text.isascii() and media.bad_column(text.encode()) is None

    def _play(self):
        left = []
        for update in self.recording.updates:
            if self._is_told(update):
                update.before = left + update.before
                self.updates.append(update)
                left = []
            else:
                left += update.before
        for number, update in enumerate(self.updates, 1):
            self.out = []
            self._steps(update.before, True)
            before, place = self.out, {}
            for call in update.resized() + update.found:
                self.out = []
                start = self.history.time
                self._steps(call.steps, False)
                targets = [self.elements.get(entry['element']) for entry in call.entries]
                at = place[call.observer] = place.get(call.observer, -1) + 1
                self.done.setdefault(call.observer, []).append(
                    Done(number, at, [words for words, _ in self.out], start, self.history.time, [name for name in targets if name]))
            self.parts.append((number, before, max([int(round(update.time))] + [time for time in self.ticks[-1:]])))
            self.ticks.append(self.parts[-1][2])

    def _steps(self, steps, first_boxes):
        """Boxes first, outside of callbacks, so that a page is there before it is scrolled and observed; nothing is told in between."""
        if first_boxes:
            steps = sorted(steps, key=lambda row: ORDER.get(row['what'], 2))
        for row in steps:
            getattr(self, '_' + row['what'])(row)

    def _boxes(self, row):
        changed = self.boxes.take(row['boxes'])
        for key in changed:
            self._place(key)
        for key in changed:
            if key in self.need.matter:
                self._properties(key)
        for key in row['boxes']:
            number = document_of(key)
            if number is not None:
                self._viewport(number, row['boxes'][key])
            elif 'scroll' in row['boxes'][key]:
                self._scrolled(int(key), row['boxes'][key]['scroll'])

    def _place(self, key):
        """Puts an element where it is in the page's tree."""
        parent = self.boxes.measured[key]['in']
        if self.attached.get(key) == parent:
            return
        if parent is None:
            self.say('remove', self.element(key))
        else:
            number = document_of(parent)
            if number is None and parent not in self.attached and parent in self.boxes.measured:
                self._place(parent)
            if number is not None and number not in self.documents:
                return
            frame = None if number is None else self.recording.documents[number]['frame']
            if frame is not None and frame not in self.attached and frame in self.boxes.measured:
                self._place(frame)
            self.say('append', self.documents[number] if number is not None else self.element(parent), self.element(key))
        self.attached[key] = parent

    def _properties(self, key):
        name = self.element(key)
        if self.attached.get(key) is None:
            return
        for prop, value in self.boxes.properties(key).items():
            self.set(name, prop, value)

    def _viewport(self, number, box):
        if number == 0:
            size = [length(units(side)) for side in box['viewport']]
            if 'viewport' in self.given and self.given['viewport'] != size:
                self.say('viewport', *size)
            self.given['viewport'] = size
            self.first = self.first or size
            if box['window'] != box['viewport'] and self.recording.media:
                self.note('scrollbars take up space: media queries count the window, the script its viewport')
        if number in self.documents:
            self._scrolled('document %d' % number, box['scroll'])

    def _scrolled(self, key, at):
        """Scrolls an element or a document that is in the script and is scrolled at some time, with something that reaches as far."""
        number = document_of(key)
        if key not in self.need.scrolled or (number is None and key not in self.need.matter) or (number is not None and number not in self.documents):
            return
        holder = self._reach_parent(key)
        if holder is None:
            return
        if key not in self.reaches:
            self.reaches[key] = self.names.give((self.documents[number] if number is not None else self.elements[key]) + '-reach', 'reach')
            self.say('block', self.reaches[key], self._home(key), about='as far as it scrolls')
            self.say('append', holder, self.reaches[key])
            for prop, value in (('position', 'absolute'), ('left', '0px'), ('top', '0px')):
                self.set(self.reaches[key], prop, value)
        self.set(self.reaches[key], 'width', length(units(at[2])))
        self.set(self.reaches[key], 'height', length(units(at[3])))
        place = (length(units(at[0])), length(units(at[1])))
        if self.offsets.get(key, ('0px', '0px')) != place:
            self.offsets[key] = place
            self.say('scroll', self.documents[number] if number is not None else self.elements[key], *place)

    def _home(self, key):
        number = document_of(key)
        return self.documents[number if number is not None else self.recording.elements[key]['document']]

    def _reach_parent(self, key):
        """The element that gets the box that reaches as far as something scrolls."""
        if document_of(key) is None:
            return self.element(key) if self.attached.get(key) is not None else None
        root = next((child for child, parent in self.attached.items() if parent == key), None)
        return None if root is None else self.element(root)

    # --- steps ---------------------------------------------------------------------------------------------------------------

    def _scroll(self, row):
        self._scrolled(row['target'], row['at'])

    def _resize(self, row):
        if row['document'] == 0:
            known = self.boxes.documents.get(0, {'scroll': NO_EDGES})
            self._viewport(0, dict(known, viewport=row['viewport'], window=row['window']))

    def _observer(self, row):
        name, home = self.observers[row['id']], self.documents.get(row['document'])
        if home is None:
            home = 'top'
            self.note('the document of observer %d (%s) has nothing that is observed; the script has it in `top`' % (
                row['id'] + 1, naming.place(row['at'])))
        about = 'made at %s' % naming.place(row['at'])
        if row['kind'] == 'resize':
            self.say('ro', name, home, (row['id'],), about=about)
            return
        root = row['root']
        at = '-' if root is None else self.element(root) if isinstance(root, int) else self.documents.get(document_of(root), 'top')
        margin, about = self._root_margin(row, about)
        words = ['io', name, home, (row['id'],), 'root', at, 'margin'] + margin
        if self._margin(row['scroll']) and row['scroll'] != '0px 0px 0px 0px':
            words += ['scroll'] + self._margin(row['scroll'])
        if row['delay'] or row['visible']:
            self.note('observer %d (%s): delay and trackVisibility are left out' % (row['id'] + 1, naming.place(row['at'])))
        self.say(*words, 'threshold', *[self._threshold(number, row) for number in row['thresholds']], about=about)

    def _margin(self, text):
        return [] if text in (None, '', '0px 0px 0px 0px') else text.split(' ')

    def _root_margin(self, row, about):
        """The margin, with each percentage that the language takes in another way than the browser as a length; and the comment."""
        parts, sizes = self._margin(row['margin']), self.need.root_sizes(row['root'], self.recording)
        if not parts or not sizes:
            return parts, about
        given, whole = list(parts), 'Firefox' not in self.recording.agent
        for side, part in enumerate(parts):
            if part.endswith('%'):
                taken = {percentage(part, size[1 - side % 2], whole) for size in sizes}
                if taken != {percentage(part, size[0], False) for size in sizes} or len(taken) > 1:
                    given[side] = length(units(percentage(part, sizes[0][1 - side % 2], whole)))
                    if len(taken) > 1:
                        self.note('observer %d (%s): its margin `%s` follows the size of its root, which changes; the script has it as it was '
                                  'at first' % (row['id'] + 1, naming.place(row['at']), row['margin']))
        return given, about if given == parts else '%s, with the margin %s' % (about, row['margin'])

    def _threshold(self, number, row):
        text = ('%.4f' % number).rstrip('0').rstrip('.') or '0'
        if abs(float(text) - number) > 1e-6:
            self.note('observer %d (%s): the threshold %r is told as %s' % (row['id'] + 1, naming.place(row['at']), number, text))
        return text

    def _observe(self, row):
        if self.recording.elements[row['element']].get('shadow'):
            self.note('%s is in a shadow tree; the script counts all that is around it, also outside, in its depth' % (
                self.recording.elements[row['element']]['name']))
        name, target = self.observers[row['observer']], self.element(row['element'])
        if self.recording.observers[row['observer']]['kind'] == 'resize':
            self.say('ro-observe', name, target, BOXES.get(row['box'], 'content'))
        else:
            self.say('io-observe', name, target)

    def _kind(self, row):
        return 'ro' if self.recording.observers[row['observer']]['kind'] == 'resize' else 'io'

    def _unobserve(self, row):
        self.say(self._kind(row) + '-unobserve', self.observers[row['observer']], self.element(row['element']))

    def _disconnect(self, row):
        self.say(self._kind(row) + '-disconnect', self.observers[row['observer']])

    def _take(self, row):
        self.note('observer %d (%s): what takeRecords returned is still in its queue only until the update is over; the script takes it '
                  'where the page did, or before the next tick' % (row['observer'] + 1, naming.place(self.recording.observers[row['observer']]['at'])))
        self.say('io-take', self.observers[row['observer']])

    def _media(self, row):
        text = row['query'].strip()
        if not self.is_known(row):
            self.note('the media query %s is left out: the language has only widths, heights and orientation' % ascii(text))
            return
        self.media[row['id']] = self.names.give('query-%d' % (row['id'] + 1), 'query')
        self.say('media', self.media[row['id']], self.documents[row['document']], text)

    # --- the text ------------------------------------------------------------------------------------------------------------

    def text(self):
        called = {key: self.observers[key] for key, calls in self.done.items() if any(call.commands for call in calls)}
        handlers = {key: Handler(self.observers[key], calls, self.history, lambda words: self._line(words, None, called))
                    for key, calls in self.done.items()}
        lines = ['# %s' % naming.ascii_text(line) for line in self._head()] + ['script 2']
        # A page has its size from the start, so this comes first: later it would be a change.
        lines += ['viewport %s %s' % tuple(self.first)] if self.first and self.first != ['800px', '600px'] else []
        for key, handler in handlers.items():
            if handler.lines:
                lines += ['handler %s' % handler.name] + self._about_calls(key) + handler.lines + ['end']
        helped = [handler for handler in handlers.values() if handler.needs_now]
        for number, commands, time in self.parts:
            lines += [self._line(words, about, called) for words, about in commands]
            lines += self._helping(number, helped)
            lines.append('tick %d' % time)
        return '\n'.join(lines) + '\n'

    def _head(self):
        yield 'What %s was told in %s.' % (self.recording.page, browser_of(self.recording.agent))
        yield 'Boxes have the places and sizes that the browser gave; docs/REAL-PAGES.md says how.'
        for sentence in self.notes:
            yield "Not as in the page: %s." % sentence

    def _about_calls(self, key):
        """What the callback did in the page, as a comment, the first few."""
        said = list(dict.fromkeys(text for call in self.recording.calls.values() if call.observer == key for text in call.by))
        return ['# %s' % naming.ascii_text(text)[:120] for text in said[:4]] + (['# and %d more' % (len(said) - 4)] if len(said) > 4 else [])

    @staticmethod
    def _line(words, about, called):
        line = ' '.join(called.get(word[0], '-') if isinstance(word, tuple) else word for word in words)
        return line if about is None else '%s   # %s' % (line, naming.ascii_text(about))

    def _helping(self, number, helped):
        """The boxes that tell handlers which update it is, and which of its calls."""
        root = next((self.elements[key] for key, parent in self.attached.items() if parent == 'document 0'), None)
        lines = []
        if number == 1 and helped and root:
            for name in ['now'] + [handler.turn for handler in helped if handler.needs_turn]:
                lines += ['block %s top   # tells handlers which update it is' % name, 'append %s %s' % (root, name),
                          'set %s position fixed' % name, 'set %s width 0px' % name]
        if any(call.update == number for handler in helped for call in self._calls_of(handler)):
            lines.append('set now width %s' % length(number * UNITS_PER_PIXEL))
            lines += ['set %s width 0px' % handler.turn for handler in helped if handler.needs_turn]
        return lines

    def _calls_of(self, handler):
        return next((calls for key, calls in self.done.items() if self.observers[key] == handler.name), [])


ORDER = {'boxes': 0, 'resize': 0, 'scroll': 1}
BOXES = {'content-box': 'content', 'border-box': 'border', 'device-pixel-content-box': 'device'}
INITIAL = dict({'display': 'block', 'position': 'static', 'box-sizing': 'content-box', 'overflow': 'visible', 'margin-left': '0px',
                'margin-top': '0px', 'border': '0px', 'padding': '0px'},
               **{'%s-%s' % (kind, side): '0px' for kind in ('border', 'padding') for side in ('top', 'right', 'bottom', 'left')})


def percentage(part, side, is_whole):
    """The length of a percentage of a root's side; Chromium truncates it to whole pixels."""
    found = float(part[:-1]) * side / 100
    return int(found) if is_whole else found


def browser_of(agent):
    """The browser's name and version."""
    for mark, name in (('Firefox/', 'Firefox'), ('HeadlessChrome/', 'Chromium'), ('Chrome/', 'Chromium')):
        if mark in agent:
            return '%s %s' % (name, agent.split(mark, 1)[1].split(' ')[0])
    return 'a browser'
