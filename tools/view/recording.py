"""A run of the reference that records, tick by tick, the lines of the trace, which commands and callbacks run, and where the boxes are
at the end of the tick.

A log is a list of items:
    ['line', N]                           the line N of those kept, from 0
    ['handler', NAME, LINE]               a handler is called; the items up to the matching 'end' run in it
    ['end']
    ['entry', ELEMENT]                    the block of an `each` begins for this target
    ['command', LINE, LEVEL, TARGET, HOW, SIZES]
        a command began, LEVEL blocks deep in its handler; TARGET is the element that `$target` names in it, or -1; HOW is the result
        of a condition, or the number of entries that an `each` iterates over, otherwise -1; SIZES are the observed sizes that it
        changed: [observer, element, box, width, height, width, height], before and after. Commands outside handlers are only in the
        log if they changed such a size.
"""
import time

from explain.kept import KeptWorld
from explain.runs import CausedPage
from reference import program
from reference.comparing import TooLong
from reference.intersection import common_part
from reference.page import Page

from . import boxes

MOST_TICKS = 2000
MOST_LINES = 20000                # of the trace
MOST_COMMANDS_OF_A_TICK = 400     # in handlers, and calls of handlers
MOST_COMMANDS = 40000
MOST_DIFFERENCES = 400000         # values of packed boxes
MOST_OF_MOMENTS = 40000          # boxes that are looked at for moments within ticks
SECONDS = 120                     # of processor time
COMMANDS_BETWEEN_LOOKS = 50       # at the clock

START, TICK, END = 'start', 'tick', 'end'


class Step:
    """A tick with what happened since the previous tick, or the time before the first tick or after the last one.

    `since` is the log of the commands before the tick; `commands` are the first and the last of their lines and how many began;
    `boxes` is the difference from the previous step, None if it was left out. `moments` are pairs: from this place of `log` on, the boxes are
    those of the moment before with this difference; the first one is relative to the end of the previous step.
    """

    def __init__(self, kind):
        self.kind, self.number = kind, 0
        self.line, self.time = 0, None
        self.since, self.log = [], []
        self.commands = (0, 0, 0)
        self.kept, self.not_kept = 0, 0   # commands of handlers
        self.lines_not_kept = 0
        self.boxes, self.moments = None, []

    def begin_command(self, line):
        first, _, count = self.commands
        self.commands = (first or line, line, count + 1)


class _Tasks(list):
    """The tasks of a world; `note` is called when intersections have been found."""

    def __init__(self, note):
        list.__init__(self)
        self.note = note

    def append(self, task):
        list.append(self, task)
        if task.handler is None:
            self.note()


class _NotingWorld(KeptWorld):
    """A world that knows whether a box or a scroll position may have changed since the last step, and since the last moment. What
    `KeptWorld` notes is since the last moment; `resized_before` and `was_rearranged` are from the last step to that moment."""

    def __init__(self, version, note):
        KeptWorld.__init__(self, version)
        self.tasks = _Tasks(note)
        self.has_changed = self.has_scrolled = True
        self.is_new, self.is_other = True, True                # since the last moment: anything, the whole layout
        self.resized_before, self.was_rearranged = set(), False

    def changed(self):
        self.is_new = True
        KeptWorld.changed(self)

    def forget_all(self):
        self.has_changed = self.is_other = True

    def scrolled(self):
        self.has_scrolled = self.is_new = True
        KeptWorld.scrolled(self)

    def begin_moments(self):
        """Moments begin with what has changed since the last step."""
        self.is_other = self.has_changed
        self.resized, self.is_rearranged = self.resized | self.resized_before, self.is_rearranged or self.was_rearranged
        self.resized_before, self.was_rearranged = set(), False

    def end_moment(self):
        self.is_new, self.is_other = False, False
        self.resized_before |= self.resized
        self.was_rearranged = self.was_rearranged or self.is_rearranged
        self.resized, self.is_rearranged = set(), False

    def end_step(self):
        self.has_changed = self.has_scrolled = False
        self.resized, self.is_rearranged = set(), False
        self.resized_before, self.was_rearranged = set(), False


class Recording(CausedPage):
    """The page whose run is recorded; it also serves bin/explain as a run of the reference. `first` is the number of the first tick
    that is kept; `say` is called now and then with the number of ticks that have run."""
    seconds, failure = SECONDS, None

    def __init__(self, script, first=1, say=lambda ticks: None):
        CausedPage.__init__(self, script, boxes.Things())
        self.world = _NotingWorld(script.version, self._note_meetings)
        self.first, self.say = first, say
        self.things.document(self.world.top)
        self.steps, self.ended, self.ticks = [], True, 0       # ticks that ended
        self.status, self.page = None, self
        self.boxes_left_out_from = None
        self.packed, self.differences = None, 0
        self.moment, self.boxes_of_moments, self.no_moments_from = None, 0, None
        self.met_at = -1                                       # the moment of its tick in which intersections were found last
        self.last_tick = None                                  # (number, State) of the last one whose boxes are kept
        self.level, self.running = None, None                  # in a handler: how deep, and its command's item
        self.last_entry = None
        self.lines_left_out = 0                                # `told` is the whole trace, for explanations
        self._forget()
        self.looks_at_the_clock = -1
        self.next_say = time.process_time() + 1
        self.end_of_time = self.next_say + SECONDS

    def _forget(self):
        """Forgets what has been recorded, and starts again from here."""
        self.lines, self.told_before, self.kept_commands = [], len(self.told), 0
        self._begin_step(START)

    def _begin_step(self, kind):
        self.step = Step(kind)
        self.log = self.step.since

    # --- the run ------------------------------------------------------------------------------------------------------------

    def record(self):
        """Runs the script; `ended` says whether it reached its end, or a limit, in time. Otherwise it is stopped at the beginning of a
        command, and what has been recorded by then is kept."""
        went_on = True
        try:
            for command in self.script.commands:
                is_tick = command.name == 'tick'
                if is_tick:
                    self._begin_tick(command)
                else:
                    self.step.begin_command(command.line)
                went_on = self.run_outside(command)
                if is_tick:
                    self._end_tick()
                if not went_on:
                    break
            self.status = program.DONE if went_on else program.LIMIT
            if self.step.commands[2] or not self.steps:
                self.step.kind = END
                self._keep_step()
        except TooLong:
            self.ended = False
            self.step.time = self.world.clock
            self._keep_step()
        return self

    @property
    def is_beyond(self):
        """Whether all ticks that are to be kept have run."""
        return self.ticks >= self.first - 1 + MOST_TICKS

    def _begin_tick(self, command):
        if self.ticks == self.first - 1:
            self._keep_step()
            self._begin_step(TICK)
        self.step.kind, self.step.line = TICK, command.line
        self.log = self.step.log
        self.moment, self.met_at = self.packed, -1
        self.world.begin_moments()
        self._note_moment()

    def _note_moment(self):
        """Notes the boxes within a tick if they may have changed."""
        world = self.world
        if not world.is_new and (self.moment is None or self.moment.ratio == world.pixel_ratio):
            return
        if self.is_beyond or self.ticks < self.first - 1 or self.boxes_left_out_from is not None or self.no_moments_from is not None:
            return
        packed = None if world.is_other else boxes.followed_state(
            world, self.things, self.moment, world.resized, world.is_rearranged)
        if packed is None:
            self.boxes_of_moments += 1 + world.elements_made
            if self.boxes_of_moments > MOST_OF_MOMENTS:
                self.no_moments_from = self.ticks + 1
                return
            packed = boxes.state(world, self.things)
        changed = boxes.difference(self.moment, packed)
        world.end_moment()
        if changed:
            self.step.moments.append([len(self.log), changed])
            self.moment = packed

    def _note_meetings(self):
        self.met_at = len(self.step.moments) - 1

    def _end_tick(self):
        is_kept = self.ticks >= self.first - 1
        self.step.time = self.world.clock
        if is_kept:
            self._keep_step()
            self._note_last_tick()
        self.ticks += 1
        self._begin_step(END)
        if not is_kept:
            self._forget()

    def _keep_step(self):
        if self.is_beyond:
            return
        step = self.step
        step.number = self.ticks + (step.kind == TICK)
        self.steps.append(step)
        if self.boxes_left_out_from is not None:
            return
        step.boxes = {}
        world = self.world
        is_rescaled = self.packed is not None and self.packed.ratio != world.pixel_ratio
        resized = world.resized | world.resized_before
        has_found = any(observer.queue for observer in world.intersection_observers)
        if not (is_rescaled or has_found or world.has_changed or world.has_scrolled or resized or self.causes.stirred):
            return
        packed = None
        if step.kind == TICK and not world.is_new and self.moment is not None:
            packed = boxes.observed_again(world, self.things, self.moment)       # no box has changed since the last moment
        elif not world.has_changed:
            packed = boxes.followed_state(world, self.things, self.packed, resized, world.is_rearranged or world.was_rearranged)
        if packed is None:
            packed = boxes.state(world, self.things)
        step.boxes = boxes.difference(self.packed, packed)
        self.differences += boxes.count(step.boxes)
        if self.differences > MOST_DIFFERENCES and self.packed is not None:
            self.boxes_left_out_from, step.boxes = step.number, None
        self.packed = packed
        world.end_step()
        self.causes.stirred = False

    def _note_last_tick(self):
        if self.steps[-1].kind == TICK and self.steps[-1].boxes is not None:
            self.last_tick = (self.steps[-1].number, self.packed)

    def begin(self, command):
        self.looks_at_the_clock += 1
        if self.looks_at_the_clock % COMMANDS_BETWEEN_LOOKS:
            Page.begin(self, command)
            self.begun_by_line[command.line] += 1
            return
        now = time.process_time()
        if now > self.end_of_time:
            raise TooLong
        if now > self.next_say:
            self.next_say = now + 1
            self.say(self.ticks)
        Page.begin(self, command)
        self.begun_by_line[command.line] += 1

    # --- callbacks and commands -----------------------------------------------------------------------------------------------

    def _keep(self, item):
        if not self.is_beyond:
            self.log.append(item)

    def call(self, document, handler, entries=None, lines=()):
        outer, began = (self.level, self.last_entry), []
        if lines:
            self.causes.stirred = True                # also where the document isn't Active, so that nothing is told
        try:
            Page.call(self, document, handler, entries, self._noted(lines, handler, began))
        finally:
            self.level, self.last_entry = outer
            if began:
                self._keep(['end'])

    def _noted(self, lines, handler, began):
        """The lines of a callback; after the last of them its handler begins."""
        yield from lines
        if handler is not None:
            self.level, self.last_entry = 0, None
            if self._takes_room():
                began.append(True)
                self._keep(['handler', handler.name, handler.line])

    def _takes_room(self):
        """Whether there is room for one more item of a handler; if so, it is counted."""
        if self.is_beyond or self.step.kept >= MOST_COMMANDS_OF_A_TICK or self.kept_commands >= MOST_COMMANDS:
            return False
        self.step.kept += 1
        self.kept_commands += 1
        return True

    def run_command(self, command):
        if self.level is None:
            return Page.run_command(self, command)
        outer, self.running = self.running, self._note_command(command)
        self.level += 1
        try:
            return Page.run_command(self, command)
        finally:
            self.level -= 1
            self.running = outer
            self._note_moment()

    def _note_command(self, command):
        """The command's item, which is kept if there is room for it."""
        is_kept = self._takes_room()
        target = -1 if self.entry is None else self.things.element(self.entry.target)
        if is_kept and self.entry is not None and self.entry is not self.last_entry:
            self._keep(['entry', target])
        self.last_entry = self.entry
        names_target = any(operand.value == '$target' for operand in command.operands)
        item = ['command', command.line, self.level, target if names_target else -1,
                len(self.entries or ()) if command.name == 'each' else -1, []]
        if is_kept:
            self._keep(item)
        else:
            self.step.not_kept += 1
        return item

    def holds(self, command):
        held = Page.holds(self, command)
        if self.running is not None:
            self.running[4] = int(held)
        return held

    def note_changes(self, command, changes):
        if changes and self.running is not None:
            self.running[5] = changes
        elif changes:
            self._keep(['command', command.line, 0, -1, -1, changes])

    # --- lines of the trace ---------------------------------------------------------------------------------------------------

    def keep(self, told):
        self.told.append(told)
        if isinstance(told.about, tuple):
            told.more = self._meeting(told.about[1])
        if self.is_beyond or len(self.lines) >= MOST_LINES:
            self.lines_left_out += 1
            self.step.lines_not_kept += 1
            return
        self._keep(['line', len(self.lines)])
        self.lines.append(told)

    def _meeting(self, entry):
        """What a line `intersect` was found with: the moment, the root's rectangle with margins and without, the clips and what is left."""
        if not entry.clips:
            return ['met', self.met_at, None, None, [], None]
        root = entry.clips[-1]
        clips = [[clip.rectangle, clip.own or clip.rectangle] for clip in entry.clips[1:-1]]
        return ['met', self.met_at, root.rectangle, root.own, clips, common_part([clip.rectangle for clip in entry.clips])]
