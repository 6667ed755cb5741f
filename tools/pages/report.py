"""What bin/record prints."""
import re
import textwrap

from . import scripting
from .judging import reason_of

MOST_REPORTS = 20
WIDTH = 120


def wrapped(line):
    """A long sentence in lines that are easy to read, set in a little further."""
    space = ' ' * (len(line) - len(line.lstrip()))
    if len(line) <= WIDTH:
        return [line]
    return textwrap.wrap(line, WIDTH, subsequent_indent=space + '  ', break_on_hyphens=False, break_long_words=False)


def same(said):
    """What makes two reports the same: all but their numbers and their times."""
    return re.sub(r'[0-9.]+', '#', ' '.join(said[1:]))


def of_errors(recording):
    """The reports on loop errors; those that say the same of other sizes are counted."""
    told, counts, last = {}, {}, {}
    for row in recording.errors:
        key = same(row['said'])
        told.setdefault(key, row['said'])
        counts[key] = counts.get(key, 0) + 1
        last[key] = row['said'][0].rsplit('(', 1)[-1].split(' ms')[0]
    lines = []
    for key, said in list(told.items())[:MOST_REPORTS]:
        lines += [part for line in said for part in wrapped(line)]
        if counts[key] > 1:
            lines.append('  The same happened %s more, the last time %s ms.' % (
                'once' if counts[key] == 2 else '%d times' % (counts[key] - 1), last[key]))
        lines.append('')
    if len(told) > MOST_REPORTS:
        lines += ['And %d reports on other observers and elements; the recording has all.' % (len(told) - MOST_REPORTS), '']
    return lines


def counted(number, word):
    return '%d %s%s' % (number, word, '' if number == 1 else 's')


def head(recording, page):
    errors = len(recording.errors)
    return '%s in %s: %s' % (page, scripting.browser_of(recording.agent), counted(errors, 'loop error') if errors else 'no loop error')


def tail(recording, script, judgement, files):
    """What was recorded, what the script leaves out, and the judgement."""
    kinds = [row['kind'] for row in recording.observers.values()]
    entries = sum(len(call.entries) for call in recording.calls.values())
    yield 'Recorded: %s, %s; %s in %s.' % (
        counted(kinds.count('resize'), 'resize observer'), counted(kinds.count('intersection'), 'intersection observer'),
        '1 entry' if entries == 1 else '%d entries' % entries, counted(len(recording.updates), 'update'))
    yield 'Written: %s.' % ', '.join(files)
    for sentence in recording.notes:
        yield 'Of the recording: %s.' % sentence
    for sentence in script.notes:
        yield 'Not as in the page: %s.' % sentence
    if judgement is None:
        yield 'Nothing was told to any observer, so there is nothing to judge.'
        return
    yield 'The script by %s, and what the browser told: %s.' % (judgement.by, judgement.said)
    if not judgement.is_equal:
        yield from difference(judgement)


def difference(judgement):
    if judgement.classes:
        yield '  All that differs is known of this browser (docs/BROWSERS.md):'
        for name in sorted(judgement.classes):
            yield from wrapped('  %s: %s.' % (name, reason_of(name)))
    else:
        yield '  In no class of docs/BROWSERS.md; if the script leaves something out, a line above says what.'
    for line in judgement.lines:
        yield '  %s %s' % ('rules   ' if line[0] == '-' else 'browser ', line[1:])
