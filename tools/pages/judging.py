"""The browser's own deliveries compared with the trace of the script, and the class of docs/BROWSERS.md of what differs."""
import difflib
import os
import subprocess
import sys

from reference import grammar, judge
from reference.comparing import TooLong, time_limit
from reference.page import Page

TOP = os.path.dirname(os.path.dirname(os.path.dirname(os.path.abspath(__file__))))
sys.path.insert(0, os.path.join(TOP, 'tools', 'browser'))

from classes_table import reason_of

PROGRAM = os.path.join(TOP, 'crates', 'replay', 'out', 'replay')
SECONDS = 120
SECONDS_OF_A_MODEL = 20
MOST_SHOWN = 5


class Judgement:
    """`said`, as `--judge` says it; `by`, whose trace it is compared with; the classes, or None if no model gives the trace; and the
    first lines that differ."""

    def __init__(self, said, by):
        self.said, self.by, self.classes, self.lines = said, by, set(), []
        self.is_equal = said.startswith('equal')


def trace_of(text):
    """(the script's trace, whose it is): the proved program's if that is built."""
    if os.access(PROGRAM, os.X_OK):
        done = subprocess.run([PROGRAM], input=text.encode(), stdout=subprocess.PIPE, stderr=subprocess.DEVNULL, timeout=SECONDS)
        return done.stdout.decode('ascii', 'replace').splitlines(), 'the proved program'
    lines = []
    with time_limit(SECONDS):
        Page(grammar.parse(text.encode()), lambda line, number, about: lines.append(line)).run()
    return lines, 'the reference program, as the proved one is not built'


def judged(text, recorded, engine):
    """The judgement of a recorded trace, its lines, in an engine."""
    rules, by = trace_of(text)
    ended = [[line.encode() + b'\n' for line in lines] for lines in (rules, recorded)]
    found = Judgement(judge.verdict(*ended), by)
    if os.access(PROGRAM, os.X_OK):
        source = text + 'trace\n' + ''.join(line + '\n' for line in recorded)
        done = subprocess.run([PROGRAM, '--judge'], input=source.encode(), stdout=subprocess.PIPE, stderr=subprocess.DEVNULL, timeout=SECONDS)
        found.said = done.stdout.decode('ascii', 'replace').strip() or found.said
    if not found.is_equal:
        found.classes = classes(text, recorded, engine)
        found.lines = [line for line in difflib.unified_diff(rules, recorded, lineterm='', n=0) if line[:2] not in ('--', '++', '@@')][:MOST_SHOWN]
    return found


def classes(text, recorded, engine):
    """The classes that a model of the engine needs to give the trace, or None if it doesn't give it."""
    import models
    try:
        with time_limit(SECONDS_OF_A_MODEL):
            for told in (recorded, with_first_events(text, recorded)):
                found = models.classes_of(text, engine, told)
                if found is not None:
                    return found if told is recorded else (found - {'frame-first-resize'} or {'first-resize-event'})
    except (TooLong, KeyError, IndexError, ValueError):
        pass
    return None


def with_first_events(text, recorded):
    """The trace with the `resize` events that the models expect as a frame is shown: in a real page they came before the recording."""
    frames = [line.split()[3] for line in text.splitlines() if line.startswith('frame ')]
    return recorded[:1] + ['event resize @%s' % name for name in frames] + recorded[1:]
