"""What the pieces run: the library, the program, and three small programs in C, built once for a library."""
import fcntl
import hashlib
import os
import subprocess
import tempfile

import unproved
import unproved_library

TOP = os.path.dirname(os.path.dirname(os.path.dirname(os.path.abspath(__file__))))
HERE = os.path.dirname(os.path.abspath(__file__))
MANY = os.path.join(TOP, 'bindings', 'tests', 'many.c')
WRAPPED = ['-Wl,--wrap=malloc', '-Wl,--wrap=realloc', '-Wl,--wrap=free']


class Refused(Exception):
    """What a sweep needs isn't there."""


class Made:
    """The paths of what the pieces run. `sum` says which library and program they are."""

    def __init__(self, folder, program):
        self.folder, self.program = folder, program
        self.shared, self.archive = os.path.join(folder, 'libmifdagus.so'), os.path.join(folder, 'libmifdagus.a')
        for path in (self.shared, self.archive, program):
            if not os.path.isfile(path):
                raise Refused("there is no %s: build it with bin/build and bin/build --library, or give --unproved" % path)
        self.sum = sum_of([self.shared, self.archive, program])
        own = os.path.join(TOP, 'out', 'sweep', sum_of([self.archive, *sources()]))
        self.many, self.refusing, self.failing = (os.path.join(own, name) for name in ('many', 'refusing', 'failing.so'))
        self.build(own)

    def build(self, own):
        os.makedirs(own, exist_ok=True)
        include = '-I' + os.path.join(TOP, 'include')
        with open(os.path.join(own, 'lock'), 'w') as lock:
            fcntl.flock(lock, fcntl.LOCK_EX)
            for path, words in ((self.many, ['-O2', include, MANY, self.archive]),
                                (self.refusing, ['-O2', include, os.path.join(HERE, 'refusing.c'), self.archive, *WRAPPED]),
                                (self.failing, ['-O2', '-shared', '-fPIC', os.path.join(HERE, 'failing.c')])):
                if not os.path.exists(path):
                    compile_to(path, words)


def sources():
    return [MANY, os.path.join(HERE, 'refusing.c'), os.path.join(HERE, 'failing.c')]


def sum_of(paths):
    total = hashlib.sha256()
    for path in paths:
        with open(path, 'rb') as file:
            total.update(hashlib.sha256(file.read()).digest())
    return total.hexdigest()[:24]


def compile_to(path, words):
    part = tempfile.mktemp(dir=os.path.dirname(path))
    compiler = os.environ.get('CC', 'cc')
    try:
        done = subprocess.run([compiler, *words, '-o', part], stdout=subprocess.PIPE, stderr=subprocess.STDOUT)
    except OSError as fault:
        raise Refused("there is no C compiler (%s): install gcc, or set CC" % fault) from None
    if done.returncode:
        raise Refused("%s can't be compiled: %s" % (os.path.basename(path), done.stdout.decode(errors='replace')[-800:]))
    os.rename(part, path)


def made(is_unproved, library=None, program=None):
    """What bin/build made, or what is compiled without proofs; or a library's folder and a program that are named."""
    try:
        folder = library or (str(unproved_library.compiled()) if is_unproved else os.path.join(TOP, 'out'))
        program = program or (str(unproved.compiled()) if is_unproved else os.path.join(TOP, 'crates', 'replay', 'out', 'replay'))
    except (unproved.Refused, unproved_library.Refused, OSError) as fault:
        raise Refused(str(fault)) from None
    return Made(folder, program)
