"""Compares a recorded trace with that of its script (`--judge`).

The source is a script, a line `trace` and the recorded trace.
"""
from . import trace

MOST_RECORDED = 67108864


def split_after_line_feeds(text):
    lines = text.split(b'\n')
    last = lines.pop()
    return [line + b'\n' for line in lines] + ([last] if last else [])


def parts(text):
    """(script, recorded trace): what comes before the first line `trace`, and what comes after it."""
    at = 0
    while at < len(text):
        end = text.find(b'\n', at)
        line = text[at:] if end < 0 else text[at:end]
        if line == b'trace' or (line == b'trace\r' and end >= 0):
            return text[:at], b'' if end < 0 else text[end + 1:]
        if end < 0:
            break
        at = end + 1
    return text, b''


def verdict(expected, recorded):
    """`equal COUNT`, or `differs LINE` and how, for two lists of lines with their line feeds."""
    if expected == recorded:
        return 'equal %d' % len(expected)
    place = 0
    while place < len(expected) and place < len(recorded) and expected[place] == recorded[place]:
        place += 1
    if place >= len(expected):
        how = 'extra'
    elif place >= len(recorded):
        how = 'missing'
    elif not trace.is_line(recorded[place]):
        how = 'not-a-line'
    else:
        how = 'text %d' % _first_difference(expected[place], recorded[place])
    return 'differs %d %s' % (place + 1, how)


def _first_difference(one, other):
    """The column of the first byte that differs."""
    column = 1
    while one[column - 1:column] == other[column - 1:column]:
        column += 1
    return column
