"""The model of an engine: a script's run with the engine's differences."""
from reference import update
from reference.commands import EFFECTS
from reference.page import Page
from reference.refusals import Throw
from reference.world import ACTIVE, tree_document

from .anchoring import Anchors
from .commands import Commands
from .crossings import Crossings
from .layout import EngineWorld, whole_window
from .rounds import Rounds
from .traits import EMPTY_PAGES_LAY_OUT, FRAMES_IN_TIME, TIMERS_LAY_OUT
from .viewports import Viewports


class Model(Commands, Viewports, Rounds, Crossings, Page):
    """Runs a script like an engine; `told` is the browser's trace."""

    def __init__(self, script, classes, told=(), order=None):
        self.lines, self.told, self.classes = [], told, classes
        self.met = set()                  # classes that made the run deviate; they may turn out not to matter
        self.noticed = set()              # classes because of which an event comes late, once more, or not at all
        self.order = order
        self.known = {}                   # document -> the viewport's size that the browser has given it
        self.resized = set()              # documents with a `resize` to be fired
        self.changed_for_a_moment = set()    # query lists whose `change` is due to a ratio
        self.lowered = set()              # documents in frames since the ratio was lowered, up to the end of the next update
        self.frame_came = {}              # document -> the size of its frame when that was inserted
        self.rescaled = set()             # those of them with one that is due to a ratio
        self.ever_laid = set()            # documents that have been laid out: a frame inserted into one has no size at first
        self.noted = {}                   # document -> the size that the rules noted at the last update
        self.states = {}                  # query list -> its state by the rules
        self.changed_queries = {}         # document -> its query lists with a `change` to be fired
        self.new_documents = []           # documents that haven't been laid out yet
        self.refilled = []                # frames that were inserted again: they have an empty page instead of their document
        self.updates = 0                  # how often intersections have been updated
        self.came = {}                    # element -> that number when it was last inserted
        # element -> the document that it was last inserted into, of those that were Active then or in which an update found it
        self.put_in = {}
        self.insertions = {}              # document -> number, in the order in which their frames were inserted
        self.sizes = {}                   # resize observers' targets -> their sizes at the last layout
        self.round = None
        self.had_turns = set()            # documents that have had a turn in this resize loop
        self.placed = {}                  # resize observers' targets -> their positions as the round began
        self.to_be_made = {}              # document -> those in its frames whose boxes are created anew when it is laid out
        self.anew = set()                 # documents with a `resize` to be fired for that
        self.emptied = set()              # those of them that have no size until they are laid out themselves
        self.unshown = set()              # documents whose frames had no box at the last layout around them
        self.touched = set()              # elements that have changed since the last layout; contains None if all is to be laid out
        self.laid_places = {}             # out-of-flow boxes and those in them -> their positions then
        self.asked = set()                # documents that have requested a frame callback
        self.new_scrollers = set()        # elements that have become scroll containers since the last layout
        self.slowed = set()               # documents in `asked` that were out of view when something around them was laid out
        self.ended = set()                # documents that have ended
        self.changed_documents = set()    # documents that have changed since they were last laid out
        self.broken = set()               # those of them that a box was removed from
        self.unlaid = set()               # those of them that need more than new styles: a box was added or has changed
        self.observed_late = set()        # registrations created while the root was away
        self.found_before = {}            # document -> what its observers find by its last layout, while some are being notified
        self.given = {}                   # element -> its fields -> the property with which each was set
        self.failed = set()               # documents with a loop error in this update, which is fired only once
        self.is_dirty = False             # whether something has changed since the last layout
        self.disturbed = False            # whether a listener of a loop error has left it so
        self.all_resize_observers = []
        self.tool_saw = {}                # resize observer -> target -> the last size reported to the tool, or None
        self.late_scrolls = []            # things that a layout has scrolled: their events are queued at the end of an update
        self.anchors = Anchors(self)
        self.queued_at = {}               # document -> when one of its intersection observers got the first entry of this update
        self.telling = None               # the document whose intersection observers are being notified
        self.hidden = {}                  # scrolled documents that aren't shown -> whether something in them has changed
        super().__init__(script, lambda line, script_line, about: self.lines.append(line))
        self.world = EngineWorld(script.version, self)
        self.began = False

    def differs(self, name):
        """Whether the engine has this class; the caller has found that it makes a difference here."""
        if name not in self.classes:
            return False
        self.met.add(name)
        return True

    def has(self, name):
        return name in self.classes

    def run(self):
        """Runs the script; the `viewport` and `ratio` lines at its beginning give the page its initial size."""
        commands = list(self.script.commands)
        while commands and commands[0].name in ('viewport', 'ratio'):
            self.run_outside(commands.pop(0))
        self.known[self.world.top] = whole_window(self.world.viewport_size)
        self.resized.clear()
        self.began = True
        return all(self.run_outside(command) for command in commands)

    def run_command(self, command):
        if command.name != 'tick':
            return super().run_command(command)
        outer, self.line = self.line, command.line
        try:
            self.begin(command)
            self.tick(command, command.operands[0].value)
            return False
        except Throw as thrown:
            self.tell('throw %d %s' % (command.line, thrown.kind), thrown)
            return True
        finally:
            self.line = outer

    def do(self, command):
        effect = getattr(self, 'do_' + command.name.replace('-', '_'), None)
        values = self.look_up_all(command)
        if effect is None:
            EFFECTS[command.name](self, command, *values)
        else:
            effect(command, *values)

    def expected(self, after=0):
        place = len(self.lines) + after
        return self.told[place] if place < len(self.told) else ''

    # --- a tick -------------------------------------------------------------------------------------------------------------

    def tick(self, command, time):
        world = self.world
        if time < world.clock:
            raise Throw('RangeError', command.operands[0], "the clock is at %d, and time can't go backwards" % world.clock)
        world.clock = time
        self.tell('tick %d' % time)
        update._run_timers(self)
        self.update_the_rendering()
        self.run_tasks()
        if self.has(EMPTY_PAGES_LAY_OUT):
            self.lay_out_pages()
        if self.has(TIMERS_LAY_OUT):
            self.lay_out_all()
        self.end_round()

    def lay_out_pages(self):
        """New pages in frames are laid out, each in a task of its own."""
        for document in self.new_documents + [tree_document(frame) for frame in self.refilled if tree_document(frame) is not None]:
            self.lay_out(document)
        self.new_documents, self.refilled = [], []

    def update_the_rendering(self):
        if self.has(FRAMES_IN_TIME):
            self.lay_out_all()
            for document in self.insertions:
                self.known.setdefault(document, (0, 0))
        self.lay_out_pages()
        documents = self.documents_in_order()
        awake = {document for document in documents if self.has_work(document)}
        for part in (self.resize_steps, self.scroll_steps, self.media_steps):
            for document in documents:
                if document.state is ACTIVE and (part == self.resize_steps or self.fires_events(document, awake)):
                    part(document)
        awake = self.awake_for_callbacks(documents, awake)
        for document in documents:
            if document.state is ACTIVE and self.runs_frame_callbacks(document, awake):
                update._frame_callbacks(self, document)
        self.resize_loop()
        again = {document for document in self.lowered if document.state is ACTIVE and self.world.layout.shows(document)}
        self.resized, self.rescaled, self.lowered = self.resized | again, self.rescaled | again, set()
        for thing, document in self.late_scrolls:
            if thing not in document.pending_scrolls:
                document.pending_scrolls.append(thing)
        self.late_scrolls = []
        documents = self.documents_in_order()
        self.updates += 1
        if self.tells_in_update():
            self.crossings_by_turns(documents)
        else:
            for document in documents:
                self.intersections(document)
        # What callbacks have changed is laid out when the update is painted.
        for document in documents:
            if document.state is ACTIVE:
                self.places_in(document)
