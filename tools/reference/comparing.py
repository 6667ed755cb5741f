"""Compares the proved program with the reference on random scripts, for tools/compare.

A script that runs too long is skipped for the next candidate of its seed: one that begins more than MOST_COMMANDS commands,
writes more than MOST_LINES lines or takes the reference more than MOST_SECONDS of processor time.
"""
import contextlib
import signal
import subprocess

from . import grammar, program, random_scripts
from .lexer import Fault, TextLimit
from .page import Page

MOST_COMMANDS = 20000
MOST_LINES = 20000
MOST_SECONDS = 20
MOST_SECONDS_OF_THE_PROGRAM = 120


class TooLong(Exception):
    """A run took too long and was abandoned."""


@contextlib.contextmanager
def time_limit(seconds):
    """Raises TooLong in code that takes more processor time than this; works only in the main thread. Other work on the
    machine doesn't count."""
    def give_up(number, frame):
        raise TooLong
    before = signal.signal(signal.SIGPROF, give_up)
    signal.setitimer(signal.ITIMER_PROF, seconds)
    try:
        yield
    finally:
        signal.setitimer(signal.ITIMER_PROF, 0)
        signal.signal(signal.SIGPROF, before)


class _ShortPage(Page):
    """A page that raises TooLong if its run is long."""

    def __init__(self, script, lines):
        Page.__init__(self, script, self.keep)
        self.lines = lines

    def keep(self, text, line, about):
        if len(self.lines) >= MOST_LINES:
            raise TooLong
        self.lines.append(text)

    def begin(self, command):
        if self.world.begun >= MOST_COMMANDS:
            raise TooLong
        Page.begin(self, command)


class Answer:
    """What a program wrote, and its exit status, or a text that says why it has none."""

    def __init__(self, text, status):
        self.text, self.status = text, status

    def __eq__(self, other):
        return (self.text, self.status) == (other.text, other.status)

    def lines(self):
        return self.text.decode('ascii', 'replace').splitlines()


def _answer(lines, status):
    return Answer(''.join([line + '\n' for line in lines]).encode(), status)


def short_replay(text, language):
    """The reference's trace of a script; raises TooLong."""
    try:
        script = grammar.parse(text, language)
    except (Fault, TextLimit) as refused:
        return [refused.text()], program.SYNTAX if isinstance(refused, Fault) else program.LIMIT
    lines = []
    page = _ShortPage(script, lines)
    return lines, program.DONE if page.run() else program.LIMIT


def reference_answer(words, text, language):
    """The reference's answer, or None if that takes too long. A failure counts as an answer too."""
    try:
        with time_limit(MOST_SECONDS):
            if words and words[0] in ('--pages', '--judge', '--lint', '--check'):
                return _answer(*program.answer(words, lambda: text, language))
            lines, status = short_replay(text, language)
            return _answer(lines, status) if not words else _answer(*program.answer(words, lambda: text, language))
    except TooLong:
        return None
    except Exception as fault:
        return Answer(b'', 'it fails: %r' % fault)


def program_answer(command, words, text):
    try:
        done = subprocess.run(command + words, input=text, stdout=subprocess.PIPE, stderr=subprocess.DEVNULL,
                              timeout=MOST_SECONDS_OF_THE_PROGRAM)
    except subprocess.TimeoutExpired as late:
        return Answer(late.stdout or b'', "it didn't end in %d seconds" % MOST_SECONDS_OF_THE_PROGRAM)
    return Answer(done.stdout, done.returncode)


class Case:
    """A random script with the arguments of its run, and the reference's answer."""

    def __init__(self, kind, seed, version, language):
        self.kind, self.seed, self.version, self.language = kind, seed, version, language
        for self.words, self.text in random_scripts.candidates(kind, seed, version, self._trace, language.without):
            self.wanted = reference_answer(self.words, self.text, language)
            if self.wanted is not None:
                return
        raise ValueError('%s %d: no candidate ends soon' % (kind, seed))

    def _trace(self, text):
        try:
            with time_limit(MOST_SECONDS):
                return short_replay(text, self.language)[0]
        except TooLong:
            return None

    def differs(self, command):
        return program_answer(command, self.words, self.text) != self.wanted

    def still_differs(self, command, text):
        wanted = reference_answer(self.words, text, self.language)
        return wanted is not None and program_answer(command, self.words, text) != wanted


def first_difference(one, other):
    """(number of the first line that differs, one line, the other); a line past the end is None."""
    place = 0
    while place < len(one) and place < len(other) and one[place] == other[place]:
        place += 1
    return place + 1, one[place] if place < len(one) else None, other[place] if place < len(other) else None
