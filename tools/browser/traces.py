"""The rules' trace of a script, and the comparison of two traces."""
import difflib
import os
import shlex
import subprocess

HERE = os.path.dirname(os.path.abspath(__file__))
TOP = os.path.dirname(os.path.dirname(HERE))
PROGRAM = os.path.join(TOP, 'crates', 'replay', 'out', 'replay')


class NoRules(Exception):
    """There is no trace by the rules."""


class NoCommand(Exception):
    """The command can't be run."""


def trace_of(command, path):
    """The lines that a command writes for a script; its status may be that of a syntax error or a limit."""
    try:
        with open(path, 'rb') as script:
            done = subprocess.run(command, stdin=script, stdout=subprocess.PIPE)
    except OSError as e:
        raise NoCommand("'%s' can't be run: %s" % (command[0], e.strerror))
    if done.returncode not in (0, 1, 2):
        raise NoRules("'%s' ended with status %d" % (command[0], done.returncode))
    return done.stdout.decode('latin-1').splitlines()


def stored(path):
    """The trace stored next to a script, or None."""
    base = os.path.splitext(path)[0]
    for name in (base + '.trace', base + '.rules'):
        if os.path.exists(name):
            with open(name) as file:
                return file.read().splitlines()
    return None


def by_rules(path, command=None):
    """The rules' trace of a script: from the user's command if there is one, else from the program if it is built, else the stored one."""
    if command:
        return trace_of(shlex.split(command), path)
    if os.access(PROGRAM, os.X_OK):
        return trace_of([PROGRAM], path)
    kept = stored(path)
    if kept is None:
        raise NoRules("the program isn't built, and no trace is stored next to the script; bin/build builds it, or --rules names a command")
    return kept


def beside(left, right):
    """Pairs of lines with a mark: '!' for different lines, '-' for one only on the left, '+' for one only on the right, otherwise a space."""
    rows = []
    for tag, a, b, c, d in difflib.SequenceMatcher(None, left, right, False).get_opcodes():
        mine, theirs = left[a:b], right[c:d]
        for at in range(max(len(mine), len(theirs))):
            one = mine[at] if at < len(mine) else ''
            two = theirs[at] if at < len(theirs) else ''
            rows.append((one, two, ' ' if tag == 'equal' else '!' if one and two else '-' if one else '+'))
    return rows
