"""Texts at each limit and one past it, in both versions of the language, with the last line and the status that they must end with; and a
page that is at all of its limits at once. The numbers are those of docs/SCRIPT.md, and say nothing of the program's own."""
HANDLER = ['handler h', 'end']
MAKING = {'resize': 'ro o%d top -', 'intersection': 'io o%d top - root - margin threshold'}
OBSERVING = {'resize': 'ro-observe o%d b%d content', 'intersection': 'io-observe o%d b%d'}
EVENTS = ('resize', 'scroll', 'error', 'change')
SCRIPT_BYTES, RECORDED_BYTES = 16777216, 67108864


def numbered(form, count):
    return [form % number for number in range(1, count + 1)]


def observations(kind, count):
    """So many observations, by three observers."""
    blocks = -(-count // 3)
    pairs = [(observer, block) for observer in (1, 2, 3) for block in range(1, blocks + 1)][:count]
    return numbered('block b%d top', blocks) + numbered(MAKING[kind], 3) + [OBSERVING[kind] % pair for pair in pairs]


def listeners(count):
    blocks = -(-count // 4)
    all_of_them = ['listen b%d %s h' % (block, event) for block in range(1, blocks + 1) for event in EVENTS]
    return HANDLER + numbered('block b%d top', blocks) + all_of_them[:count]


def chain(count):
    names = ['top'] + ['e%d' % number for number in range(1, count + 1)]
    return [line for parent, name in zip(names, names[1:]) for line in ('block %s top' % name, 'append %s %s' % (parent, name))]


def nested(count):
    return ['block n top'] + ['when not attached n'] * count + ['end'] * count


# The lines after the first that make so many of what is counted, and the number in each version.
COUNTED = {
    'handlers': (lambda count: [line for number in range(count) for line in ('handler h%d' % number, 'end')], (4096, 4096)),
    'nesting': (nested, (16, 16)),
    'commands': (lambda count: ['say x'] * count, (1000000, 2000000)),
    'nodes': (lambda count: numbered('block b%d top', count), (20000, 40000)),
    'depth': (chain, (256, 256)),
    'documents': (lambda count: ['frame f%d top d%d' % (number, number) for number in range(1, count)], (64, 64)),
    'resize-observers': (lambda count: numbered(MAKING['resize'], count), (4096, 4096)),
    'intersection-observers': (lambda count: numbered(MAKING['intersection'], count), (4096, 4096)),
    'resize-observations': (lambda count: observations('resize', count), (50000, 100000)),
    'intersection-observations': (lambda count: observations('intersection', count), (50000, 100000)),
    'queries': (lambda count: numbered('media m%d top all', count), (4096, 4096)),
    'listeners': (listeners, (4096, 4096)),
    'timers': (lambda count: HANDLER + numbered('timer top t%d 1 h', count), (4096, 4096)),
    'frame-callbacks': (lambda count: HANDLER + numbered('raf top f%d h', count), (4096, 4096)),
    'tasks': (lambda count: HANDLER + ['post top h'] * count, (4096, 4096)),
}


class Case:
    """`last` is the last line that the answer must have, and None where any will do; a limit's line is told but for the line of the script."""

    def __init__(self, words, text, status, last):
        self.words, self.text, self.status, self.last = words, text, status, last

    def is_met(self, status, reply):
        line = reply.rstrip(b'\n').split(b'\n')[-1].decode('latin-1')
        words = line.split(' ')
        if len(words) == 4 and words[0] == 'limit':
            line = ' '.join((words[0], words[1], words[3]))
        return status == self.status and self.last in (None, line)


def counted(kind, version):
    """At the limit, where the script goes on, and one past it."""
    made, numbers = COUNTED[kind]
    most, first = numbers[version - 1], 'script %d' % version
    goes_on = [] if kind == 'commands' else ['say on']
    text = lambda lines: ('\n'.join([first] + lines) + '\n').encode()
    return [Case([], text(made(most) + goes_on), 0, ('say x' if kind == 'commands' else 'say on')),
            Case([], text(made(most + 1) + goes_on), 2, 'limit %s %d' % (kind, most))]


def padded(start, bytes_in_all):
    return start + b'\n' * (bytes_in_all - len(start))


def of_bytes(version):
    """The limits of bytes: of a script, a line, and a source with a recorded trace; and the pages of a stream."""
    start = b'script %d\nsay on\n' % version
    line = b'script %d\n' % version
    judged = start + b'trace\nsay on\n'
    pages = lambda count: b''.join(b'page p%d\n' % number + start for number in range(1, count + 1))
    return {
        'script': [Case([], padded(start, SCRIPT_BYTES), 0, 'say on'),
                   Case([], padded(start, SCRIPT_BYTES + 1), 2, 'limit script %d' % SCRIPT_BYTES)],
        'line': [Case([], line + b' ' * 4096 + b'\nsay on\n', 0, 'say on'), Case([], line + b' ' * 4097 + b'\n', 2, 'limit line 4096')],
        'recorded': [Case(['--judge'], padded(judged, RECORDED_BYTES), 7, None),
                     Case(['--judge'], padded(judged, RECORDED_BYTES + 1), 2, 'limit recorded %d' % RECORDED_BYTES)],
        'pages': [Case(['--pages'], pages(8), 0, None), Case(['--pages'], pages(9), 2, 'limit pages 8')],
    }


def everything(version):
    """A page of which each thing is at its limit, and a tick in which all of it is at work: 64 documents, the longest path, as many elements,
    observers, observations, listeners, timers and callbacks as may be, in a script of as many bytes and handlers as may be."""
    most = {kind: numbers[version - 1] for kind, (_, numbers) in COUNTED.items()}
    lines = ['handler h', 'end'] + ['handler k%d\nend' % number for number in range(1, most['handlers'])]
    lines += nested(most['nesting'])
    frames = most['documents'] - 1
    lines += ['frame f%d top d%d' % (number, number) for number in range(1, frames + 1)] + chain(most['depth'])
    blocks = most['nodes'] - frames - most['depth'] - 1
    lines += ['block b%d top' % number for number in range(1, blocks + 1)]
    lines += ['append e1 f%d' % number for number in range(1, frames + 1)] + ['append e1 b%d' % number for number in range(1, blocks + 1)]
    for kind in ('resize', 'intersection'):
        observers = most[kind + '-observers']
        lines += [('ro r%d top -' if kind == 'resize' else 'io i%d top - root - margin threshold') % number for number in range(1, observers + 1)]
        form = 'ro-observe r%d b%d content' if kind == 'resize' else 'io-observe i%d b%d'
        count = most[kind + '-observations']
        lines += [form % (1 + number % observers, 1 + number // 8) for number in range(count)]
    lines += ['media m%d top all' % number for number in range(1, most['queries'] + 1)]
    lines += ['listen b%d %s h' % (number // 4 + 1, EVENTS[number % 4]) for number in range(most['listeners'])]
    lines += ['timer top t%d 1 h' % number for number in range(1, most['timers'] + 1)]
    lines += ['raf top a%d h' % number for number in range(1, most['frame-callbacks'] + 1)] + ['post top h'] * most['tasks']
    text = ('script %d\n' % version + '\n'.join(lines) + '\ntick 0\ntick 16\nsay on\n').encode()
    return Case([], padded(text, SCRIPT_BYTES), 0, 'say on')


NAMES = [*COUNTED, 'script', 'line', 'recorded', 'pages', 'everything']


def cases(name):
    """The cases of a limit in both versions."""
    found = []
    for version in (1, 2):
        if name == 'everything':
            found.append(everything(version))
        else:
            found += counted(name, version) if name in COUNTED else of_bytes(version)[name]
    return found
