"""Lines `limit`: which limit, how many, and where they went."""
from collections import Counter

from reference import lexer
from reference.world import path

from .pointing import marked
from .wording import counted, listed, number

_MOST_SHOWN = 5
_SAID = {
    'nodes': 'At most {} elements can be created in a run, including those that were removed.',
    'documents': 'At most {} documents can be created in a run, including `top` and those that have ended.',
    'resize-observers': 'At most {} resize observers can be created in a run.',
    'intersection-observers': 'At most {} intersection observers can be created in a run.',
    'queries': 'At most {} query lists can be created in a run.',
    'resize-observations': 'Together, resize observers can have at most {} targets at a time; `ro-unobserve` and `ro-disconnect` '
                           'free some.',
    'intersection-observations': 'Together, intersection observers can have at most {} targets at a time; `io-unobserve` and '
                                 '`io-disconnect` free some.',
    'listeners': 'There can be at most {} listeners at a time; `unlisten` removes one.',
    'timers': 'At most {} timers can be waiting at a time; `clear-timer` removes one, and a tick removes those that are due.',
    'frame-callbacks': 'At most {} frame callbacks can be waiting at a time; a tick calls those of documents that are Active.',
    'tasks': 'At most {} posted tasks can be waiting at a time; a tick runs them.',
    'commands': 'A run can begin at most {} commands, counting those in handlers and blocks every time they begin.',
    'depth': 'No element can be deeper than {}; a root element is at depth 1.',
}


def explain(told, script, run):
    """The lines of the explanation; `run` is the reference's."""
    limit = told.about
    if isinstance(limit, lexer.TextLimit):
        return _OF_TEXTS[limit.kind](limit, script)
    explained = ['line %d of the script: %s' % (limit.line, script.command(limit.line)),
                 '%s This would be %s.' % (_SAID[limit.kind].format(number(limit.number)),
                                           'deeper' if limit.kind == 'depth' else 'one more')]
    if limit.kind == 'depth':
        return explained + _path(limit)
    lines = _where(limit.kind, run.page)
    explained.append('Where the commands come from:' if limit.kind == 'commands' else 'Where they come from:')
    return explained + ['  ' + said for said in _by_lines(lines, script)]


def beyond(text, script, run):
    """The same for a last line to which the reference didn't come in its time: of `commands`, where those went that it ran."""
    words = text.split(' ')
    if words[:2] != ['limit', 'commands'] or run.page is None:
        return []
    line = int(words[2])
    explained = ['line %d of the script: %s' % (line, script.command(line)), _SAID['commands'].format(number(int(words[3]))),
                 'Where the first %s come from, after which the reference program was stopped:' % number(run.page.world.begun)]
    return explained + ['  ' + said for said in _by_lines(run.page.begun_by_line, script)]


def _path(limit):
    names = [node.name for node in path(limit.parent)][::-1]
    if len(names) > 6:
        names = names[:3] + ['... %d more ...' % (len(names) - 6)] + names[-3:]
    return ['The parent `%s` is at depth %d: %s' % (limit.parent.name, sum(1 for _ in path(limit.parent)), ' > '.join(names))]


def _where(kind, page):
    """How many of what is counted come from each line of the script."""
    world = page.world
    things = list(world.names.values())
    if kind == 'commands':
        return page.begun_by_line
    if kind in ('nodes', 'documents', 'resize-observers', 'intersection-observers', 'queries'):
        what = {'nodes': 'element', 'documents': 'document', 'resize-observers': 'resize observer',
                'intersection-observers': 'intersection observer', 'queries': 'query list'}[kind]
        return Counter([thing.line for thing in things if thing.what == what and thing.line])
    if kind == 'resize-observations':
        return Counter([held.line for thing in things if thing.what == 'resize observer'
                        for held in thing.observations.values()])
    if kind == 'intersection-observations':
        return Counter([held.line for observer in world.intersection_observers for held in observer.registrations.values()])
    if kind == 'listeners':
        return Counter([held.line for listeners in world.listeners.values() for held in listeners])
    if kind == 'tasks':
        return Counter([task.line for task in world.tasks if task.handler is not None])
    held = world.timers if kind == 'timers' else world.frame_callbacks
    return Counter([callback.line for callbacks in held.values() for callback in callbacks.values()])


def _by_lines(counts, script):
    """The lines that count most; neighbours with the same count and command are told together."""
    runs = []
    for line in sorted(counts):
        name = script.command(line).split(' ')[0]
        if runs and runs[-1][1] < line and runs[-1][2:] == [counts[line], name]:
            runs[-1][1] = line
        else:
            runs.append([line, line, counts[line], name])
    totals = [(sum(counts[line] for line in range(first, last + 1) if line in counts), first, last, name)
              for first, last, _, name in runs]
    totals.sort(key=lambda total: (-total[0], total[1]))
    said = []
    for total, first, last, name in totals[:_MOST_SHOWN]:
        where = 'line %d: %s' % (first, script.command(first)) if first == last else 'lines %d to %d: %s ...' % (
            first, last, script.command(first))
        said.append('%s by %s' % (number(total).rjust(len(number(totals[0][0]))), where))
    rest = totals[_MOST_SHOWN:]
    if rest:
        said.append('%s by other lines' % number(sum(total[0] for total in rest)))
    return said


# --- limits of the text -----------------------------------------------------------------------------------------------------

def _script(limit, script):
    feeds = script.text.count(b'\n', 0, limit.number)
    return ['A script can have at most %s bytes; this one has more. Its first %s bytes contain %s.' % (
        number(limit.number), number(limit.number), counted(feeds, 'line feed'))]


def _line(limit, script):
    line = script.line(limit.line)
    column = limit.number + 1
    explained = ['line %d, column %d:' % (limit.line, column)] + ['  ' + shown for shown in marked(
        line, column, 1, 'byte %s' % number(column))]
    return explained + ['A line can have at most %s bytes before its line feed; this one has %s.' % (
        number(limit.number), number(len(line)))]


def _handlers(limit, script):
    return ['line %d of the script: %s' % (limit.line, script.command(limit.line)),
            'A script can have at most %s handlers; this would be one more. They begin on lines %d to %d.' % (
                number(limit.number), limit.held[0], limit.held[-1])]


def _nesting(limit, script):
    return ['line %d of the script: %s' % (limit.line, script.command(limit.line)),
            "Blocks can be nested at most %d deep; this would be one deeper. A handler isn't a block. The blocks that are open "
            'begin on lines %s.' % (limit.number, listed([str(line) for line in limit.held]))]


_OF_TEXTS = {'script': _script, 'line': _line, 'handlers': _handlers, 'nesting': _nesting}
