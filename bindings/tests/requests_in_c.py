"""Asks the program answers.c, which calls the library through its header, for examples, random scripts and hostile buffers."""
import re
import struct
import subprocess

NULL = 2 ** 64 - 1
USAGE, TOO_LONG = 6, 5
STATUSES = {b'syntax': 1, b'limit': 2, b'differs': 7}


class Stopped(Exception):
    pass


class Library:
    def __init__(self, command):
        self.process = subprocess.Popen(command, stdin=subprocess.PIPE, stdout=subprocess.PIPE, stderr=subprocess.PIPE)

    def ask(self, job, source, room, number=0, x=b'5px', y=b'5px'):
        """(status, needed, the buffer); a size of NULL stands for a null pointer."""
        size = lambda text: NULL if text is None else len(text)
        request = job.encode() + struct.pack('<5Q', number, size(x), size(y), size(source), room)
        try:
            self.process.stdin.write(request + (x or b'') + (y or b'') + (source or b''))
            self.process.stdin.flush()
            head = self.read(9)
            return head[0], struct.unpack('<Q', head[1:])[0], self.read(0 if room == NULL else room)
        except (BrokenPipeError, Stopped):
            raise Stopped('answers.c stopped at %s %r ..: status %s, %s' % (job, (source or b'')[:60], self.process.wait(),
                          self.process.stderr.read().decode(errors='replace')[-1500:])) from None

    def read(self, size):
        found = self.process.stdout.read(size)
        if len(found) < size:
            raise Stopped
        return found

    def close(self):
        self.process.stdin.close()
        said = self.process.stderr.read().decode(errors='replace')
        ended = self.process.wait()
        self.process.stdout.close()
        return '' if ended == 0 and not said else 'answers.c: status %s, %s' % (ended, said[-1500:])


def status_of(trace):
    lines = trace.split(b'\n')
    return STATUSES.get(lines[-2].split(b' ')[0], 0) if len(lines) > 1 else 0


def of_a_text(library, name, text, trace):
    """The reply in a buffer that just fits, that is too large, and in ones that are too small."""
    blank = b'\xa5'
    for room in (len(trace), len(trace) + 100):
        wanted = (status_of(trace), len(trace), trace + blank * (room - len(trace)))
        if library.ask('r', text, room) != wanted:
            yield '%s: the C call answers otherwise in %d bytes' % (name, room)
    for room in {0, max(len(trace) - 1, 0), len(trace) // 2} - {len(trace)}:
        if library.ask('r', text, room) != (TOO_LONG, len(trace), blank * room):
            yield '%s: the C call answers otherwise in %d bytes, which are too few' % (name, room)


PAGE = b'script 1\nblock a top\nappend top a\nset a height 10px\ntick 0\n'
HOSTILE = [
    # job, source, room, number, x, y, and the status that is wanted
    ('r', None, 100, 0, b'', b'', 1), ('r', b'', 100, 0, b'', b'', 1), ('r', b'script 1\n', NULL, 0, b'', b'', 0),
    ('r', b'\0' * 100, 100, 0, b'', b'', 1), ('r', bytes(range(256)) * 40, 100, 0, b'', b'', 1), ('c', PAGE, 5, 0, b'', b'', 0),
    ('c', PAGE, 4, 0, b'', b'', 5), ('c', PAGE, NULL, 0, b'', b'', 5), ('i', PAGE, 100, 1, b'', b'', 0), ('i', PAGE, 100, 0, b'', b'', 6),
    ('i', PAGE, 100, 1000001, b'', b'', 6), ('i', PAGE, 100, 2 ** 64 - 1, b'', b'', 6), ('h', PAGE, 100, 1, b'5px', b'5px', 0),
    ('h', PAGE, 100, 1, b'5', b'5px', 6), ('h', PAGE, 100, 1, b'5px', b'', 6), ('h', PAGE, 100, 1, b'\xff\xfepx', b'5px', 6),
    ('h', PAGE, 100, 1, None, b'5px', 6), ('h', PAGE, 100, 1, b'5px', None, 6), ('h', PAGE, 100, 1, b'1000001px', b'5px', 6),
    ('h', PAGE, 100, 1, b'-0.5px', b'0px', 0), ('g', b'', 10 ** 6, 0, b'', b'', 0), ('g', b'', 100, 1000001, b'', b'', 6),
    ('G', b'', 300, 3, b'', b'', 0), ('l', b'script 1\n', 100, 0, b'', b'', 0), ('s', b'script 1\n', 300, 0, b'', b'', 0),
    ('P', b'script 1\nsay  a\n', 15, 0, b'', b'', 0), ('P', b'script 1\nsay  a\n', 14, 0, b'', b'', 5),
    ('j', b'script 1\nsay a\ntrace\nsay a\n', 100, 0, b'', b'', 0), ('j', b'script 1\nsay a\ntrace\nsay b\n', 100, 0, b'', b'', 7),
    ('j', None, 100, 0, b'', b'', 7), ('p', b'page a\nscript 1\nsay b\n', 100, 0, b'', b'', 0), ('p', b'script 1\n', 100, 0, b'', b'', 1),
    ('r', b'#' * 16777217, 100, 0, b'', b'', 2), ('p', b'page a\n' + b'#' * 16777217, 100, 0, b'', b'', 2),
]


def of_hostile(library):
    for job, source, room, number, x, y, wanted in HOSTILE:
        status, needed, buffer = library.ask(job, source, room, number, x, y)
        if status != wanted:
            called = (job, (source or b'')[:20], room, number, x, y, status, wanted)
            yield 'C call %s with %r .., %s bytes, %d, %r, %r: status %d instead of %d' % called
        kept = buffer[0 if status in (USAGE, TOO_LONG) else needed:]
        if kept.strip(b'\xa5') or (status == USAGE and needed):
            yield 'C call %s: bytes outside of the reply were changed' % job


def differences(command, texts):
    library = Library(command)
    try:
        for text in texts:
            yield from of_a_text(library, *text)
        yield from of_hostile(library)
        said = library.close()
        if said:
            yield said
    except Stopped as stopped:
        yield str(stopped)
