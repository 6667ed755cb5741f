"""The jobs of the program `replay`, proved, in this process.

    import mifdagus
    print(mifdagus.replay(open('examples/loop-error.script').read()).text)

Each function takes a script as `str` or bytes and returns a `Reply`. It raises `SyntaxRefusal` for a text that isn't a script,
`UsageRefusal` for a number or a length that it doesn't take, and `MemoryError`. Calls in several threads run side by side.
"""
from __future__ import annotations

import ctypes
import dataclasses
import enum
import re
from typing import Optional, Union

from mifdagus import _library

__all__ = ['Limit', 'Reply', 'Status', 'SyntaxRefusal', 'Text', 'UsageRefusal', 'check', 'generate', 'generate_run', 'hit', 'inspect',
           'judge', 'lint', 'pages', 'print_script', 'replay', 'summary']

Text = Union[str, bytes, bytearray, memoryview]
Length = Union[int, float, str]

# A reply that is longer is asked for again, with as much room as it needs.
FIRST_ROOM = 65536
NO_MEMORY, TOO_LONG, USAGE = 3, 5, 6


class Status(enum.Enum):
    """How a job ended."""
    DONE = 0
    SYNTAX = 1
    """Only of `pages`: one of the texts isn't a script; the others have run."""
    LIMIT = 2
    DIFFERS = 7
    """Only of `judge`: the recorded trace isn't the script's."""


@dataclasses.dataclass(frozen=True)
class Limit:
    """A limit that was met: its kind and number (docs/SCRIPT.md), and the line of the first thing beyond it."""
    kind: str
    line: int
    number: int


@dataclasses.dataclass(frozen=True)
class Reply:
    """What a job answers: the lines that the program writes, and how the job ended."""
    text: str
    status: Status
    limit: Optional[Limit] = None

    def __str__(self) -> str:
        return self.text


class SyntaxRefusal(ValueError):
    """The text isn't a script: `line` and `column` say where its first fault is."""

    def __init__(self, line: int, column: int) -> None:
        super().__init__(f"line {line}, column {column}: the text isn't a script from here on")
        self.line = line
        self.column = column


class UsageRefusal(ValueError):
    """A number or a length isn't one that the call takes."""


def replay(script: Text) -> Reply:
    """The script's trace."""
    return _answer('replay', script)


def check(script: Text) -> Reply:
    """`ok` and the number of the script's commands."""
    return _answer('check', script)


def lint(script: Text) -> Reply:
    """Whether the script's resize loops always go deeper, and whether none ends with the error."""
    return _answer('lint', script)


def summary(script: Text) -> Reply:
    """How many lines of each kind the script's trace has."""
    return _answer('summary', script)


def print_script(script: Text) -> Reply:
    """The script in its one printed form."""
    return _answer('print', script)


def inspect(script: Text, tick: int) -> Reply:
    """Each box at the end of the script's tick of this number, counted from 1."""
    return _answer('inspect', script, _number(tick, 'tick'))


def hit(script: Text, tick: int, x: Length, y: Length) -> Reply:
    """The elements that a point hits at the end of that tick, topmost first; x and y are pixels, or lengths such as '0.5px'."""
    return _answer('hit', script, _number(tick, 'tick'), _length(x, 'x'), _length(y, 'y'))


def judge(recording: Text) -> Reply:
    """Whether the trace that is recorded after the script's line `trace` is the script's."""
    return _answer('judge', recording)


def pages(stream: Text) -> Reply:
    """The traces of several pages; a line `page NAME` says whose script the next lines belong to."""
    return _answer('pages', stream)


def generate(number: int) -> Reply:
    """The script that is generated from this number, from 0 to 1000000."""
    return _answer('generate', None, _number(number, 'number'))


def generate_run(number: int) -> Reply:
    """The summary of that script's trace."""
    return _answer('generate_run', None, _number(number, 'number'))


def _bytes(text: Text) -> bytes:
    if isinstance(text, str):
        try:
            return text.encode('utf-8', 'surrogateescape')
        except UnicodeEncodeError:
            return text.encode('utf-8', 'surrogatepass')
    if isinstance(text, (bytes, bytearray, memoryview)):
        return bytes(text)
    raise TypeError(f'a script must be str or bytes, and not {type(text).__name__}')


def _number(value: int, name: str) -> ctypes.c_uint64:
    if isinstance(value, bool) or not isinstance(value, int):
        raise TypeError(f'{name} must be an int, and not {type(value).__name__}')
    if not 0 <= value < 2 ** 64:
        raise UsageRefusal(f'{name} must be from 0 to 2 ** 64 - 1')
    return ctypes.c_uint64(value)


def _length(value: Length, name: str) -> bytes:
    if isinstance(value, str):
        return _bytes(value)
    if isinstance(value, (int, float)) and not isinstance(value, bool):
        return f'{value}px'.encode()
    raise TypeError(f"{name} must be a number of pixels or a length such as '0.5px', and not {type(value).__name__}")


def _call(job: str, words: list[object]) -> tuple[int, bytes]:
    call = _library.function(job)
    needed = ctypes.c_size_t(FIRST_ROOM)
    while True:
        room = needed.value
        reply = (ctypes.c_char * room)()
        code = call(*words, reply, ctypes.c_size_t(room), ctypes.byref(needed))
        if code != TOO_LONG:
            return code, reply[:needed.value]


def _answer(job: str, source: Optional[Text], *values: object) -> Reply:
    words: list[object] = []
    for value in (*values, *([] if source is None else [_bytes(source)])):
        words += [value, ctypes.c_size_t(len(value))] if isinstance(value, bytes) else [value]
    code, text = _call(job, words)
    if code == NO_MEMORY:
        raise MemoryError('too little memory for the job: give a shorter script')
    if code == USAGE:
        raise UsageRefusal('a tick is from 1 to 1000000, another number from 0 to 1000000; a length is as in 5px or -0.5px')
    return _reply(job, Status(code), text.decode('utf-8', 'surrogateescape'))


def _reply(job: str, status: Status, text: str) -> Reply:
    if status is Status.SYNTAX and job != 'pages':
        found = re.search(r'^syntax (\d+) (\d+)$', text, re.M)
        raise SyntaxRefusal(*map(int, found.groups())) if found else ValueError(f"the text isn't a script: {text!r}")
    found = re.search(r'(?:^|[ \n])limit (\S+) (\d+) (\d+)\n\Z', text) if status is Status.LIMIT else None
    return Reply(text, status, Limit(found[1], int(found[2]), int(found[3])) if found else None)
