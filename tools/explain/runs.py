"""The proved program and the reference over a script, each in a bounded time: the reference's is that of the processor."""
import os
import subprocess
import tempfile
from collections import Counter

from reference import available, grammar, program
from reference.comparing import TooLong, time_limit
from reference.lexer import Fault, TextLimit
from reference.page import Page
from reference.resize_loop import ResizeEntry
from reference.world import Element, depth

from .causes import Causes
from .kept import KeptWorld

TOP = os.path.dirname(os.path.dirname(os.path.dirname(os.path.abspath(__file__))))
PROGRAM = os.path.join(TOP, 'crates', 'replay', 'out', 'replay')
SECONDS_OF_THE_PROGRAM = 600
SECONDS_OF_THE_REFERENCE = 30


class Proved:
    """The proved program's trace, as lines, and its status, None where it didn't end in time; `stopped` says that the trace
    may be a first part."""

    def __init__(self, text):
        with tempfile.TemporaryFile() as written:
            try:
                done = subprocess.run([PROGRAM], input=text, stdout=written, stderr=subprocess.DEVNULL,
                                      timeout=SECONDS_OF_THE_PROGRAM)
                self.status = done.returncode
            except subprocess.TimeoutExpired:
                self.status = None
            written.seek(0)
            self.lines = written.read().decode('ascii', 'replace').splitlines()
        self.stopped = self.status not in (program.DONE, program.SYNTAX, program.LIMIT)
        if self.stopped:
            self.lines = self.lines[:-1]              # which may be cut


def is_built():
    return os.access(PROGRAM, os.X_OK)


def stale_said():
    """A sentence if the built program is older than a file that it is built from, as bin/replay says it; otherwise None."""
    if not is_built():
        return None
    done = subprocess.run(['bash', '-c', '. bin/common.sh && is_up_to_date'], cwd=TOP, stdout=subprocess.DEVNULL, stderr=subprocess.DEVNULL)
    return None if done.returncode == 0 else (
        "the program isn't up to date: a file that it is built from is newer; bin/build builds it again")


class Told:
    """A line of the trace: the script's line of the command that wrote it, 0 for none, and what the line is about; the numbers of the
    elements that it is about, its causes as pairs (line, word), and what else is known. Of a size that is reported, `document` is the name
    of its observer's document, and `depth` the target's."""
    __slots__ = ('text', 'line', 'about', 'elements', 'causes', 'more', 'document', 'depth')

    def __init__(self, text, line, about):
        self.text, self.line, self.about = text, line, about
        self.elements, self.causes, self.more = [], [], None
        self.document, self.depth = None, None


class Numbers:
    """Numbers for elements, in the order in which they are met."""

    def __init__(self):
        self.elements = {}

    def element(self, element):
        return self.elements.setdefault(element, len(self.elements))


class CausedPage(Page):
    """A page that keeps the lines of its trace with what caused them, and counts the commands that are begun by their lines."""

    def __init__(self, script, things=None):
        Page.__init__(self, script, None)
        self.world = KeptWorld(script.version)
        self.told, self.begun_by_line = [], Counter()
        self.things, self.ticks = things or Numbers(), 0
        self.causes = Causes(self)

    def begin(self, command):
        Page.begin(self, command)
        self.begun_by_line[command.line] += 1
        self.ticks += command.name == 'tick'

    def do(self, command):
        self.causes.before(command)
        self.world.about_to(command, self._named_first(command))
        Page.do(self, command)
        self.world.changes = None
        self.note_changes(command, self.causes.after(command))

    def _named_first(self, command):
        """The element that the first operand names, or None."""
        name = command.operands[0].value if command.operands else None
        if name == '$target':
            return None if self.entry is None else self.entry.target
        thing = self.world.names.get(name) if isinstance(name, str) else None
        return thing if isinstance(thing, Element) else None

    def note_changes(self, command, changes):
        """`changes` are the observed sizes that a command changed."""

    def tell(self, text, about=None):
        self.keep(self.caused(text, about))

    def caused(self, text, about):
        """A line with its causes. Resize entries aren't kept: their lines say enough, and a long trace has many."""
        is_resize = isinstance(about, tuple) and isinstance(about[1], ResizeEntry)
        told = Told(text, self.line, None if is_resize else about)
        if is_resize:
            told.document, told.depth = about[0].document.name, depth(about[1].target)
        self.causes.explain(told, about)
        return told

    def keep(self, told):
        self.told.append(told)


class Reference:
    """The reference's trace with what its lines are about; `ended` says whether it came to its end in time, `failure` what
    went wrong in it, if something did."""
    seconds = SECONDS_OF_THE_REFERENCE

    def __init__(self, text):
        self.told, self.status, self.ended, self.failure = [], None, True, None
        self.script, self.page = None, None
        try:
            with time_limit(self.seconds):
                self._run(text)
        except TooLong:
            self.ended = False
        except Exception as fault:
            self.failure = repr(fault)

    def _run(self, text):
        try:
            self.script = grammar.parse(text, available.LANGUAGE)
        except (Fault, TextLimit) as refused:
            self.told.append(Told(refused.text(), refused.line, refused))
            self.status = program.SYNTAX if isinstance(refused, Fault) else program.LIMIT
            return
        self.page = CausedPage(self.script)
        self.told = self.page.told
        self.status = program.DONE if self.page.run() else program.LIMIT
