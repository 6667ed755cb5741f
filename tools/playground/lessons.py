"""The lessons of the playground: the files lessons/*.lesson, in the order of their names.

A file has parts, each begun by a line `== NAME`: `title`, `about` and `task` (paragraphs), `checks`, `script` (what the lesson begins
with) and `solution`. A check is a line `FORM :: SENTENCE`; the form is the words of a line of the trace, `*` standing for any word
and `..` at the end for any others. Before it may stand `tick K` (in the K-th tick), `N times`, or `script` (in the script instead).
"""
import os
import re

HERE = os.path.join(os.path.dirname(os.path.abspath(__file__)), 'lessons')
_CHECK = re.compile(r'(?:tick ([0-9]+): |(script): )?(?:([0-9]+) times: )?(.+) :: (.+)')


class BadLesson(Exception):
    """A lesson's file isn't written as it should be."""


def _check(line, name):
    found = _CHECK.fullmatch(line)
    if not found:
        raise BadLesson('%s: the check `%s`' % (name, line))
    tick, script, count, form, said = found.groups()
    return {'tick': int(tick or 0), 'in': script or 'trace', 'count': None if count is None else int(count), 'form': form, 'said': said}


def _paragraphs(text):
    return [' '.join(part.split()) for part in text.split('\n\n') if part.strip()]


def read(name):
    with open(os.path.join(HERE, name), encoding='ascii') as file:
        pieces = re.split(r'^== ([a-z]+)\n', file.read(), flags=re.M)
    parts = dict(zip(pieces[1::2], pieces[2::2]))
    missing = [part for part in ('title', 'about', 'task', 'checks', 'script', 'solution') if part not in parts]
    if missing or pieces[0].strip():
        raise BadLesson('%s: it has no part `%s`' % (name, missing[0]) if missing else '%s: text before the first part' % name)
    return {'name': name.rpartition('.')[0], 'title': parts['title'].strip(), 'about': _paragraphs(parts['about']),
            'task': _paragraphs(parts['task']), 'checks': [_check(line, name) for line in parts['checks'].splitlines() if line.strip()],
            'script': parts['script'].strip('\n') + '\n', 'solution': parts['solution'].strip('\n') + '\n'}


def all_of_them():
    return [read(name) for name in sorted(os.listdir(HERE)) if name.endswith('.lesson')]
