"""The table of docs/BROWSERS.md."""
import functools
import os

TABLE = os.path.join(os.path.dirname(os.path.abspath(__file__)), '..', '..', 'docs', 'BROWSERS.md')


@functools.lru_cache(1)
def rows():
    """The cells of each row of the table of docs/BROWSERS.md."""
    with open(TABLE) as file:
        cells = [[cell.strip() for cell in line.split('|')] for line in file if line.startswith('| ')]
    return [row for row in cells if len(row) > 8]


def own_classes():
    """The names of the classes whose rule is the project's own, or left open by a standard's text."""
    return {row[1] for row in rows() if row[3].startswith(('own', 'open'))}


def reason_of(name):
    """What the rule of a class says, and what browsers do instead; or None."""
    return next(('%s; in browsers: %s' % (row[2], row[4]) for row in rows() if row[1] == name), None)
