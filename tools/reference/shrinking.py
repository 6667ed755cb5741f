"""Reduces a script to fewer lines for which something still holds: it leaves out all that names a thing, then lines, first many
at a time, then one by one, and blocks as a whole or only their first and last lines; finally it leaves out single words, or
replaces them with simpler ones, so that more lines can be left out. tools/shrink is the command for it.
"""
import hashlib

_MOST_LINES_FOR_SIMPLER_WORDS = 60
_SIMPLER_NAMES = 4

def shrunk(text, holds, keep=lambda text: None):
    """The reduced script; `holds` says whether the bytes of a script still have the property, which `text` must have. No script
    is asked about twice. Each smaller script is handed to `keep`."""
    refused = set()

    def still(fewer):
        reduced = b'\n'.join(fewer)
        mark = hashlib.sha256(reduced).digest()
        if mark in refused:
            return False
        if holds(reduced):
            keep(reduced)
            return True
        refused.add(mark)
        return False
    lines = [line for line in text.split(b'\n') if line.split() and not line.split()[0].startswith(b'#')] + [b'']
    if not still(lines):
        lines = text.split(b'\n')
    before = None
    while before != lines:
        before = lines
        for cut in (_without_names, _without_runs, _without_units, _without_words, _with_simpler_words):
            lines = cut(lines, still)
    return b'\n'.join(lines)


def _without_names(lines, holds):
    """Leaves out all lines that name a thing, the things with most lines first: an element with its properties, an observer with
    its handler. A block or handler goes as a whole."""
    named = {}
    for words in (line.split() for line in lines):
        for word in words[1:2] if words[:1] and words[0] in (b'block', b'image', b'frame', b'ro', b'io', b'media', b'handler') else ():
            named[word] = 0
    for line in lines:
        for word in line.split():
            if word in named:
                named[word] += 1
    for name in sorted(named, key=lambda name: -named[name]):
        fewer, place = [], 0
        while place < len(lines):
            words = lines[place].split()
            end = _unit_end(lines, place) if words[:1] and words[0] in (b'handler', b'when') and name in words else place + 1
            if name not in words:
                fewer.append(lines[place])
            place = end
        if fewer != lines and holds(fewer):
            lines = fewer
    return lines


def _unit_end(lines, start):
    """The place after the unit that begins there: a line, or a handler or block with its `end`."""
    open_ = 0
    for place in range(start, len(lines)):
        words = lines[place].split()
        first = words[0] if words else b''
        open_ += (first in (b'handler', b'each', b'when')) - (first == b'end')
        if open_ <= 0:
            return place + 1
    return len(lines)


def _units(lines):
    """The (start, end) of each outermost unit."""
    units, start = [], 0
    while start < len(lines):
        end = _unit_end(lines, start)
        units.append((start, end))
        start = end
    return units


def _without_runs(lines, holds):
    """Leaves out runs of units, long runs first."""
    size = len(lines) // 2
    while size > 1:
        units = _units(lines)
        for at in range(len(units) - size, -1, -size):
            start, end = units[at][0], units[min(at + size, len(units)) - 1][1]
            fewer = lines[:start] + lines[end:]
            if holds(fewer):
                lines = fewer
        size //= 2
    return lines


def _without_units(lines, holds):
    """Leaves out each unit, inner ones too; a handler or block that must stay is tried without its first and last lines."""
    for start in range(len(lines) - 1, -1, -1):
        if start >= len(lines):
            continue
        end = _unit_end(lines, start)
        shorter = [lines[:start] + lines[end:], lines[:start] + lines[start + 1:]]
        if end - start > 1:
            shorter.append(lines[:start] + lines[start + 1:end - 1] + lines[end:])
        for fewer in shorter:
            if holds(fewer):
                lines = fewer
                break
    return lines


def _without_words(lines, holds):
    for place in range(len(lines)):
        words = lines[place].split(b' ')
        for at in range(len(words) - 1, -1, -1):
            fewer = words[:at] + words[at + 1:]
            changed = lines[:place] + [b' '.join(fewer)] + lines[place + 1:]
            if fewer and holds(changed):
                words, lines = fewer, changed
    return lines


def _with_simpler_words(lines, holds):
    """Replaces each name with `-`, `top` or one of the first names that are created."""
    if len(lines) > _MOST_LINES_FOR_SIMPLER_WORDS:
        return lines
    names = [b'-', b'top']
    for words in [line.split() for line in lines]:
        if len(words) > 1 and words[0] in (b'handler', b'block', b'image', b'frame', b'ro', b'io', b'media'):
            names += [word for word in words[1:2] if word not in names]
    for place in range(len(lines) - 1, -1, -1):
        words = lines[place].split(b' ')
        for at in range(1, len(words)):
            for simpler in names[:names.index(words[at])][:_SIMPLER_NAMES] if words[at] in names else ():
                changed = words[:at] + [simpler] + words[at + 1:]
                exchanged = lines[:place] + [b' '.join(changed)] + lines[place + 1:]
                if holds(exchanged):
                    words, lines = changed, exchanged
                    break
    return lines
