"""The pieces of work: each has a kind and a number, which alone determine its inputs, so that a piece can be run again anywhere."""
import collections
import hashlib
import os
import random
import re
import struct
import subprocess
import tempfile
import time

from reference import available, comparing, random_scripts, shrinking

from . import building, limits, mutating
from .library import LIMIT, TOO_LONG, USAGE, WHOLE, Library

LANGUAGE = available.LANGUAGE
STATUSES = {0: 'done', 1: 'syntax', 2: 'limit', 3: 'no memory', 4: 'read fault', 5: 'write fault', 6: 'usage', 7: 'differs'}
MOST_FAULTS = 3
SECONDS_OF_AN_INPUT = 10
SECONDS_OF_SHRINKING = 60
# By the clock, for a program that a piece starts: only what doesn't end at all is to meet it, on a busy machine too.
MOST_SECONDS = 3000


class Work:
    """A piece that runs, with what it has found."""

    def __init__(self, kind, number, made, last):
        self.kind, self.number, self.made = kind, number, made
        self.chance = random.Random('%s/%d' % (kind, number))
        self.library = Library(made.shared, last)
        self.inputs, self.calls, self.faults = 0, 0, []
        self.ends, self.worst, self.total = collections.Counter(), {}, hashlib.sha256()

    def fuzzer(self):
        return mutating.Fuzzer(self.chance, mutating.first_texts(mutating.examples_in(building.TOP)))

    def trace_of(self, text):
        return self.library.answer([], text)[1]

    def timed(self, words, text):
        """The library's answer; how long it took is kept for the word."""
        began = time.thread_time()
        answer = self.library.answer(words, text)
        took = time.thread_time() - began
        word = words[0] if words else 'replay'
        if took > self.worst.get(word, (0,))[0]:
            self.worst[word] = (round(took, 5), len(text), self.inputs)
        if took > SECONDS_OF_AN_INPUT:
            self.fault('it took %.1f seconds' % took, words, text)
        return answer

    def see(self, status, reply, calls=1):
        self.inputs, self.calls = self.inputs + 1, self.calls + calls
        self.ends[STATUSES.get(status, str(status))] += 1
        self.total.update(b'%d %d ' % (status, len(reply)) + reply)

    def fault(self, sentence, words, text, holds=None):
        """Notes a fault, with the text cut down as long as `holds` says that it shows the same."""
        ends = time.monotonic() + SECONDS_OF_SHRINKING
        smaller = shrinking.shrunk(text, lambda it: time.monotonic() < ends and holds(it)) if holds else text
        self.faults.append({'fault': sentence, 'input': self.inputs, 'words': list(words), 'text': smaller[:4000].decode('latin-1')})

    def is_enough(self):
        return len(self.faults) >= MOST_FAULTS

    def result(self):
        return {'piece': '%s %d' % (self.kind, self.number), 'inputs': self.inputs, 'calls': self.calls, 'ends': dict(sorted(self.ends.items())),
                'sum': self.total.hexdigest()[:24], 'faults': self.faults, 'worst': self.worst}


def run_self(work, count=400):
    """The library beside itself: each input again in a buffer that just fits, and in one that is a byte short."""
    fuzzer = work.fuzzer()
    while work.inputs < count and not work.is_enough():
        words, text = mutating.input_of(work.chance, fuzzer, work.trace_of)
        status, reply = work.timed(words, text)
        fuzzer.see(text, mutating.mark_of(words, status, reply))
        work.see(status, reply, 3)
        if status not in WHOLE and (status != USAGE or len(words) < 2):
            work.fault('status %d' % status, words, text)
        again = work.library.call(words, text, len(reply))
        if again != (status, len(reply)) or work.library.buffer.raw[:len(reply)] != reply:
            work.fault('the same call answers otherwise in a buffer that just fits', words, text)
        if reply and work.library.call(words, text, len(reply) - 1) != (TOO_LONG, len(reply)):
            work.fault('a buffer that is a byte short is not refused', words, text)


def unlike(work, words, text):
    """Whether the library and the reference answer otherwise, or None if that takes the reference too long."""
    wanted = comparing.reference_answer(words, text, LANGUAGE)
    return None if wanted is None else (wanted.status, wanted.text) != work.library.answer(words, text)


def run_reference(work, count=20):
    """The random scripts of tools/compare, beside the reference program."""
    kinds = list(random_scripts.KINDS)
    for place in range(count):
        seed = work.number * count + place
        case = comparing.Case(kinds[seed % len(kinds)], seed, LANGUAGE.versions[seed // len(kinds) % len(LANGUAGE.versions)], LANGUAGE)
        status, reply = work.timed(case.words, case.text)
        work.see(status, reply)
        if (status, reply) != (case.wanted.status, case.wanted.text):
            work.fault('the library and the reference differ', case.words, case.text, lambda it: unlike(work, case.words, it))
        if work.is_enough():
            return


def run_mutants(work, count=60):
    """Changed scripts, recorded traces and streams, beside the reference program."""
    fuzzer = work.fuzzer()
    while work.inputs < count and not work.is_enough():
        words, text = mutating.input_of(work.chance, fuzzer, work.trace_of)
        status, reply = work.timed(words, text)
        fuzzer.see(text, mutating.mark_of(words, status, reply))
        if status in (LIMIT,) and len(reply) > 100000:
            continue
        work.see(status, reply)
        wanted = comparing.reference_answer(words, text, LANGUAGE)
        if wanted is not None and (wanted.status, wanted.text) != (status, reply):
            work.fault('the library and the reference differ', words, text, lambda it: unlike(work, words, it))


def run_command(work, count=40):
    """The program as a command beside the library; and odd lists of words, beside the reference."""
    fuzzer = work.fuzzer()
    command = [work.made.program]
    while work.inputs < count and not work.is_enough():
        words, text = mutating.input_of(work.chance, fuzzer, work.trace_of)
        if work.chance.random() < 0.3:
            words = mutating.odd_words(work.chance)
            wanted = comparing.reference_answer(words, text, LANGUAGE)
        else:
            wanted = comparing.Answer(*reversed(work.timed(words, text)))
        if wanted is None:
            continue
        found = comparing.program_answer(command, words, text)
        work.see(found.status if isinstance(found.status, int) else 99, found.text)
        if found != wanted:
            work.fault('the command answers with status %s instead of %s, or otherwise' % (found.status, wanted.status), words, text)


LETTERS = {'': 'r', '--check': 'c', '--lint': 'l', '--summary': 's', '--print': 'P', '--judge': 'j', '--pages': 'p', '--inspect': 'i', '--hit': 'h'}


def run_memory(work, count=6):
    """Each request for memory of a call refused in turn, alone and with all later ones (refusing.c)."""
    fuzzer, asked = work.fuzzer(), []
    while len(asked) < count:
        words, text = mutating.input_of(work.chance, fuzzer, work.trace_of)
        status, reply = work.timed(words, text)
        fuzzer.see(text, mutating.mark_of(words, status, reply))
        if len(reply) < 50000 and (status == 0 or work.chance.random() < 0.1):
            asked.append((words, text))
    for words, text in asked:
        letter = LETTERS[words[0] if words else ''].encode()
        work.library.note(words, text)
        done = subprocess.run([work.made.refusing], input=letter + struct.pack('<Q', len(text)) + text, stdout=subprocess.PIPE,
                              stderr=subprocess.PIPE, timeout=MOST_SECONDS)
        found = re.fullmatch(rb'(\d+) (\d+) (\d+) (\d+) (\d+)\n', done.stdout)
        work.see(int(found[5]) if found else 99, done.stdout, int(found[2]) + int(found[3]) if found else 0)
        if found:
            work.ends['refused: no memory'] += int(found[2])
            work.ends['refused: as usual'] += int(found[3])
        if not found or int(found[4]) or done.returncode:
            work.fault('with memory refused: status %s, %s' % (done.returncode, done.stdout.decode()), words, text)


def failing(work, words, text, **said):
    """(status, what was written, whether a call failed) of the program with failing.c."""
    with tempfile.TemporaryFile() as given, tempfile.TemporaryFile() as told, tempfile.TemporaryFile() as failed:
        given.write(text)
        given.seek(0)
        os.dup2(failed.fileno(), 3)
        environment = {'LD_PRELOAD': work.made.failing, **{name: str(number) for name, number in said.items()}}
        done = subprocess.run([work.made.program, *words], stdin=given, stdout=told, stderr=subprocess.DEVNULL, env=environment, pass_fds=(3,),
                              timeout=MOST_SECONDS)
        told.seek(0)
        return done.returncode, told.read(), failed.tell() > 0 or os.fstat(failed.fileno()).st_size > 0


def run_streams(work, count=6):
    """Reads and writes that are short or fail, of the program as a command."""
    fuzzer = work.fuzzer()
    while work.inputs < count and not work.is_enough():
        words, text = mutating.input_of(work.chance, fuzzer, work.trace_of)
        status, reply = work.timed(words, text)
        if status == USAGE or not reply or len(reply) > 50000:
            continue
        work.see(status, reply, 5)
        most = work.chance.choice((1, 2, 3, 7, 100))
        if failing(work, words, text, MOST_BYTES=most)[:2] != (status, reply):
            work.fault('with at most %d bytes in a read or write it answers otherwise' % most, words, text)
        for name, ended in (('FAIL_READ', 4), ('FAIL_WRITE', 5)):
            for at in (1, 2):
                found, written, has_failed = failing(work, words, text, MOST_BYTES=max(most, 7), **{name: at})
                wanted = ended if has_failed else status
                is_part = reply.startswith(written) if name == 'FAIL_WRITE' else written == (b'' if has_failed else reply)
                work.ends['%s: %s' % (name, STATUSES.get(found, found))] += 1
                if found != wanted or not is_part:
                    work.fault('%s=%d: status %s instead of %s' % (name, at, found, wanted), words, text)


def sampled(output):
    """(text, status, reply) of what many.c tells."""
    at = 0
    while at < len(output):
        size, = struct.unpack_from('<Q', output, at)
        text = output[at + 8:at + 8 + size]
        at += 8 + size
        status, (needed,) = output[at], struct.unpack_from('<Q', output, at + 1)
        yield text, status, output[at + 9:at + 9 + needed]
        at += 9 + needed


def run_many(work, count=100000, each=1000):
    """Many short texts in one process (bindings/tests/many.c), each twice, and some of them beside the reference."""
    done = subprocess.run([work.made.many, str(count), str(work.number + 1), str(each), *mutating.examples_in(building.TOP)],
                          stdout=subprocess.PIPE, stderr=subprocess.PIPE, timeout=MOST_SECONDS)
    said = re.match(rb'(\d+) texts .*?; (\d+) differ; statuses(.*)', done.stderr)
    if not said or done.returncode or int(said[2]):
        work.fault('many.c: status %s, %s' % (done.returncode, done.stderr.decode()[-300:]), [], b'')
    for text, status, reply in sampled(done.stdout):
        wanted = comparing.reference_answer([], text, LANGUAGE)
        work.ends['beside the reference'] += wanted is not None
        work.total.update(reply)
        if wanted is not None and (wanted.status, wanted.text) != (status, reply):
            work.fault('the library and the reference differ', [], text, lambda it: unlike(work, [], it))
    if said:
        work.inputs, work.calls = int(said[1]), 2 * int(said[1])
        for status, number in re.findall(rb'(\d+): (\d+)', said[3]):
            work.ends[STATUSES[int(status)]] += int(number)


def run_limits(work):
    """A limit at its number and one past it, in both versions, by the library and by the command; or a page at all limits at once."""
    name = limits.NAMES[work.number % len(limits.NAMES)]
    for case in limits.cases(name):
        status, reply = work.timed(case.words, case.text)
        work.see(status, reply, 2)
        if not case.is_met(status, reply):
            said = (name, status, reply[-200:].decode('latin-1'), case.status, case.last)
            work.fault('at the limit of %s: status %d, ending with %r, in place of %d, %s' % said, case.words, case.text)
        found = comparing.program_answer([work.made.program], case.words, case.text)
        if (found.status, found.text) != (status, reply):
            work.fault('at the limit of %s the command answers with status %s, or otherwise' % (name, found.status), case.words, case.text)


KINDS = {'limits': run_limits, 'self': run_self, 'reference': run_reference, 'mutants': run_mutants, 'command': run_command, 'memory': run_memory,
         'streams': run_streams, 'many': run_many}


def run(kind, number, made, last=None):
    work = Work(kind, number, made, last)
    KINDS[kind](work)
    used = os.times()
    return {**work.result(), 'seconds': round(used.user + used.system + used.children_user + used.children_system, 2)}
