"""The arguments of the command line and the exit statuses (docs/TRACE.md, 'Words' and 'Statuses').

The function for an argument is given the bytes of the source and the supported language, and returns the lines to be
written, and the exit status. The whole answer is computed before anything is written.
"""
import os
import sys

from . import generator, grammar, inspector, judge, lengths, lint, printer, streams, trace
from .lexer import Fault, TextLimit
from .page import Page

DONE, SYNTAX, LIMIT, NO_MEMORY, READ_FAULT, WRITE_FAULT, USAGE, DIFFERS = range(8)

HELP = '''Usage: tools/reference/replay [ARGUMENTS] < SCRIPT

The reference program, a second implementation of the rules in docs/. It writes what the proved program, bin/replay, writes, and
exits with the same status.

Without arguments, it replays the script and writes its trace. With arguments, which are one of these, it writes instead:
  --check            ok and the number of the script's commands
  --lint             whether the resize loops are steady and quiet, or the first line that may prevent it (docs/LOOPS.md)
  --summary          how many lines of each kind the script's trace has
  --print            the script itself, each line at its line number, in the one form that docs/TRACE.md describes
  --inspect K        each box at the end of the script's K-th tick (1 to 1000000), with the part of it that is visible
  --hit K X Y        the elements at a point of the viewport at the end of that tick, topmost first; X and Y as in 5px or -0.5px
  --judge            whether the recorded trace after a line `trace` is that of the script before it (docs/CONFORMANCE.md)
  --pages            the traces of several pages; in standard input, a line `page NAME` says whose script the next lines belong to
  --generate N       the script with the number N (0 to 1000000), a list of lazily loaded cards; standard input isn't read
  --generate-run N   the summary of that script's trace; standard input isn't read
'''


class Refused(Exception):
    """A text isn't a script, or meets a limit on texts, or a single line is to be written instead of the answer."""

    def __init__(self, status, line):
        Exception.__init__(self, status, line)
        self.status, self.line = status, line


def read_script(text, language):
    try:
        return grammar.parse(text, language)
    except Fault as fault:
        raise Refused(SYNTAX, fault.text()) from fault
    except TextLimit as limit:
        raise Refused(LIMIT, limit.text()) from limit


def replay(text, language):
    """The trace of a script."""
    lines = []
    page = Page(read_script(text, language), lambda line, script_line, about: lines.append(line))
    return lines, DONE if page.run() else LIMIT


def check(text, language):
    return ['ok %d' % read_script(text, language).count], DONE


def summary(text, language):
    read_script(text, language)
    lines, status = replay(text, language)
    counts = dict.fromkeys(trace.KINDS, 0)
    for line in lines:
        counts[line.split(' ', 1)[0]] += 1
    return ['%s %d' % (kind, counts[kind]) for kind in trace.KINDS], status


def print_script(text, language):
    read_script(text, language)
    return printer.printed(text, language), DONE


def lint_script(text, language):
    return lint.verdicts(read_script(text, language)), DONE


def _page_after(text, language, ticks):
    """The page at the end of the tick with this number."""
    lines = []
    script = read_script(text, language)
    page = Page(script, lambda line, script_line, about: lines.append(line))
    seen = 0
    for command in script.commands:
        if not page.run_outside(command):
            raise Refused(LIMIT, lines[-1])
        seen += command.name == 'tick'
        if seen == ticks:
            return page
    raise Refused(DONE, 'ticks %d' % seen)


def inspect(text, language, ticks):
    return inspector.boxes(_page_after(text, language, ticks).world), DONE


def hit(text, language, ticks, left, top):
    return inspector.hits(_page_after(text, language, ticks).world, left, top), DONE


def judge_trace(text, language):
    if len(text) > judge.MOST_RECORDED:
        return ['limit recorded %d %d' % (1 + text.count(b'\n', 0, judge.MOST_RECORDED), judge.MOST_RECORDED)], LIMIT
    script, recorded = judge.parts(text)
    try:
        expected = replay(script, language)[0]
    except Refused as refused:
        expected = [refused.line]
    answer = judge.verdict([line.encode() + b'\n' for line in expected], judge.split_after_line_feeds(recorded))
    return [answer], DONE if answer.startswith('equal') else DIFFERS


def pages(text, language):
    try:
        lines, endings = streams.run(text, language)
    except streams.Refused as refused:
        return [refused.line], SYNTAX if refused.line.startswith('syntax') else LIMIT
    return lines, SYNTAX if 'syntax' in endings else LIMIT if 'limit' in endings else DONE


# --- the table of arguments -------------------------------------------------------------------------------------------------

_WORDS_ALONE = {'--check': check, '--summary': summary, '--print': print_script, '--lint': lint_script, '--judge': judge_trace,
                '--pages': pages}


def _whole(word, least, most):
    number = lengths.read_whole(word.encode(), most)
    return None if number is None or number < least else number


def plan(words):
    """(whether the source is read, the function for its bytes), or None for unknown arguments."""
    if not words:
        return True, replay
    if len(words) == 1 and words[0] in _WORDS_ALONE:
        return True, _WORDS_ALONE[words[0]]
    if len(words) == 2 and words[0] in ('--generate', '--generate-run'):
        return _plan_generated(words[0], _whole(words[1], 0, generator.MOST))
    if len(words) == 2 and words[0] == '--inspect':
        ticks = _whole(words[1], 1, 1000000)
        return None if ticks is None else (True, lambda text, language: inspect(text, language, ticks))
    if len(words) == 4 and words[0] == '--hit':
        ticks = _whole(words[1], 1, 1000000)
        left, top = lengths.read_signed(words[2].encode()), lengths.read_signed(words[3].encode())
        if None not in (ticks, left, top):
            return True, lambda text, language: hit(text, language, ticks, left, top)
    return None


def _plan_generated(word, number):
    if number is None:
        return None
    if word == '--generate':
        return False, lambda text, language: (generator.script(number).decode().splitlines(), DONE)
    return False, lambda text, language: summary(generator.script(number), language)


def answer(words, read, language=grammar.WHOLE):
    """(lines, exit status); `read` returns the bytes of the source."""
    planned = plan(words)
    if planned is None:
        return [], USAGE
    reads, job = planned
    try:
        return job(read() if reads else b'', language)
    except Refused as refused:
        return [refused.line], refused.status


def main():
    words = [os.fsencode(word).decode('ascii', 'replace') for word in sys.argv[1:]]
    if words == ['--help']:
        print(HELP, end='')
        return DONE
    try:
        lines, status = answer(words, lambda: sys.stdin.buffer.read(judge.MOST_RECORDED + 1))
    except OSError:
        return READ_FAULT
    if status == USAGE:
        sys.stderr.write(HELP)
    try:
        sys.stdout.buffer.write(''.join([line + '\n' for line in lines]).encode())
        sys.stdout.buffer.flush()
    except OSError:
        os._exit(WRITE_FAULT)
    return status
