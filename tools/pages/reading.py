"""A recording's rows by update: what came before each update, its callbacks with what they did, and its events."""
import json

FORMAT = 'mifdagus recording 1'


class NotARecording(Exception):
    """The file isn't a recording, or one of another version."""


class Call:
    """A callback of an observer: its entries, and the steps that it caused, in order. A step is a row of the recording."""

    def __init__(self, row):
        self.number, self.observer, self.document = row['number'], row['observer'], row['document']
        self.round, self.entries, self.steps, self.by = row.get('round'), row['entries'], [], []


class Update:
    """An update of the rendering in which something was told."""

    def __init__(self, number, time):
        self.number, self.time = number, time
        self.before = []          # the steps before it
        self.events = []          # rows of `resize`, `scroll` and `change`
        self.calls = []           # callbacks of resize observers, in order, with rows of `error` between them
        self.found = []           # callbacks of intersection observers

    def resized(self):
        return [call for call in self.calls if isinstance(call, Call)]


class Recording:
    """A whole recording: `updates`, and `after`, the steps that came after the last one."""

    def __init__(self, told):
        self.page, self.agent, self.ratio = told.get('page', ''), told.get('agent', ''), told.get('ratio', 1)
        self.rows = told['rows']
        self.documents, self.elements, self.observers, self.media = {}, {}, {}, {}
        self.updates, self.errors, self.notes, self.scripts = [], [], [], []
        self.calls, self.frames = {}, 0
        self._times, self._pending, self._loose, self._in = {}, [], None, None
        for row in self.rows:
            getattr(self, '_' + row['what'].replace('-', '_'), self._other)(row)
        self._settle()
        self.after = self._pending

    # --- things --------------------------------------------------------------------------------------------------------------

    def _document(self, row):
        self.documents[row['id']] = row

    def _element(self, row):
        self.elements[row['id']] = row

    def _name(self, row):
        self.elements[row['element']].update(name=row['name'], depth=row['depth'])

    def _media(self, row):
        self.media[row['id']] = row
        self._step(row)

    def _observer(self, row):
        self.observers[row['id']] = row
        self._step(row)

    def _observe(self, row):
        self._step(row)

    _unobserve = _disconnect = _take = _observe

    # --- updates -------------------------------------------------------------------------------------------------------------

    def _update(self, row):
        self._times[row['number']] = row['time']

    def _told(self, number):
        """The update with this number, which begins now if it is a new one."""
        self._settle()
        if not self.updates or self.updates[-1].number != number:
            self.updates.append(Update(number, self._times[number]))
            self.updates[-1].before, self._pending = self._pending, []
        return self.updates[-1]

    def _step(self, row):
        """A step belongs to the callback that is running, or comes before the next update."""
        self._settle()
        (self._in.steps if self._in else self._pending).append(row)

    def _boxes(self, row):
        self._settle()
        if row.get('after') in self.calls:
            self.calls[row['after']].steps.append(row)
        elif self._in:
            self._in.steps.append(row)
        else:
            self._loose = row

    def _settle(self, belongs=None):
        """Boxes that were measured as something else began belong there, otherwise to what comes before the next update."""
        if self._loose is not None:
            (self._pending if belongs is None else belongs).append(self._loose)
            self._loose = None

    def _is_in(self, number):
        return bool(self.updates) and self.updates[-1].number == number

    def _call(self, row):
        call = self.calls[row['number']] = Call(row)
        if call.round is None:
            self._found(call, row['update'])
            return
        if self._is_in(row['update']):
            update = self.updates[-1]
            before = update.resized()
            self._settle(before[-1].steps if before else update.before)
            if not before:
                self._take_over(update)
        update = self._told(row['update'])
        update.calls.append(call)
        self._in = call

    def _found(self, call, number):
        """A callback of an intersection observer, which comes after its update."""
        if self._is_in(number):
            update = self.updates[-1]
            new = {(row['observer'], row['element']) for row in self._pending if row['what'] == 'observe'}
            if not update.found and (not update.calls or any((call.observer, entry['element']) in new for entry in call.entries)):
                self._take_over(update)
                self._settle(update.before)
        update = self._told(number)
        update.found.append(call)
        self._in = call

    def _take_over(self, update):
        """What was noted since the update began, before anything was told in it, comes before it."""
        update.before += self._pending
        self._pending = []

    def _end(self, row):
        self._settle()
        if row['call'] in self.calls:
            self.calls[row['call']].by = row['by']
        self._in = None

    def _after(self, row):
        if row['call'] in self.calls:
            self.calls[row['call']].by += row['by']

    def _error(self, row):
        if self._is_in(row['update']) and self.updates[-1].resized():
            self._settle(self.updates[-1].resized()[-1].steps)
        update = self._told(row['update'])
        update.calls.append(row)
        self.errors.append(row)

    def _scroll(self, row):
        update = self._told(row['update'])
        update.before.append(row)
        update.events.append(row)

    _resize = _scroll

    def _change(self, row):
        self._told(row['update']).events.append(row)

    # --- notes ---------------------------------------------------------------------------------------------------------------

    def _frame(self, row):
        self.frames += 1

    def _script_error(self, row):
        self.scripts.append('%s (%s:%s:%s)' % (row['message'], row['file'], row['line'], row['column']))

    def _stopped(self, row):
        self.notes.append('the recording ends early: %s' % row['why'])

    def _fault(self, row):
        self.notes.append('the recorder itself failed: %s' % row['why'].split('\n')[0])

    def _late(self, row):
        self.notes.append('%s: %s' % (self.elements[row['element']]['name'], row['why']))

    _left_out = _late

    def _other(self, row):
        """Rows of actions, and of later versions, tell nothing of the page."""


def read(text):
    """The recording of a file's text."""
    try:
        told = json.loads(text)
    except ValueError:
        raise NotARecording("it isn't JSON") from None
    if not isinstance(told, dict) or told.get('format') != FORMAT or not isinstance(told.get('rows'), list):
        raise NotARecording("it isn't a recording of the form '%s'" % FORMAT)
    try:
        return Recording(told)
    except (KeyError, TypeError, AttributeError) as fault:
        raise NotARecording('a row of it lacks %s' % fault) from None
