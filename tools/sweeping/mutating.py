"""A fuzzer by structure: it changes scripts, recorded traces and streams by words, lines, blocks, numbers and bytes, and keeps for further
changes what reached something new, by the status and the kinds of lines that were answered."""
import os
import re

from reference import random_scripts

MOST_KEPT = 400
MOST_BYTES = 6000
NUMBERS = [0, 1, 2, 3, 5, 63, 64, 65, 127, 128, 255, 256, 257, 999, 1000, 4095, 4096, 65535, 65536, 10000, 33554, 33555, 100000, 999999,
           1000000, 1000001, 2147483647, 2147483648, 4294967295, 4294967296, 9223372036854775807, 18446744073709551615,
           18446744073709551616, 10 ** 30]
FRACTIONS = [b'', b'.5', b'.01', b'.015625', b'.999', b'.0000001', b'.']
SOME_BYTES = b'\n\r\t #$@-+.%0123456789abcxyz\x00\x7f\x80\xff'
OPENING = (b'handler', b'each', b'when')
KINDS = ('mixed', 'loops', 'crossings', 'events', 'frames', 'scrolling', 'trees', 'layout')


def first_texts(examples):
    """The examples, and a script of each kind and version of tools/compare."""
    found = [open(path, 'rb').read() for path in examples]
    for kind in KINDS:
        for version in (1, 2):
            found.append(next(iter(random_scripts.candidates(kind, 0, version, lambda text: None)))[1])
    return [text for text in found if len(text) < MOST_BYTES]


def blocks_of(lines):
    """Pairs of places: the first line of a block and its `end`."""
    open_, found = [], []
    for place, line in enumerate(lines):
        word = line.split(b' ')[0]
        if word in OPENING:
            open_.append(place)
        elif word == b'end' and open_:
            found.append((open_.pop(), place))
    return found


class Fuzzer:
    """Makes texts; the same numbers from `chance` give the same texts."""

    def __init__(self, chance, texts):
        self.chance, self.kept, self.marks = chance, list(texts), set()
        self.changes = [self.of_a_number, self.of_a_word, self.of_lines, self.of_a_block, self.of_bytes, self.of_a_line_from_another,
                        self.cut, self.of_the_version]
        self.weights = [6, 5, 4, 3, 1, 5, 1, 1]

    def text(self):
        text = self.chance.choice(self.kept)
        for _ in range(self.chance.choice((1, 1, 2, 2, 3, 5, 8))):
            lines = text.split(b'\n')
            change, = self.chance.choices(self.changes, self.weights)
            text = change(lines)[:MOST_BYTES]
        return text

    def see(self, text, mark):
        """Keeps a text that reached something new."""
        if mark in self.marks:
            return
        self.marks.add(mark)
        if len(self.kept) < MOST_KEPT:
            self.kept.append(text)
        else:
            self.kept[self.chance.randrange(len(self.kept))] = text

    def place(self, lines):
        return self.chance.randrange(len(lines))

    def of_a_number(self, lines):
        at = self.place(lines)
        number = b'%d' % self.chance.choice(NUMBERS) + (self.chance.choice(FRACTIONS) if self.chance.random() < 0.2 else b'')
        number = (b'-' if self.chance.random() < 0.15 else b'') + number
        found = list(re.finditer(rb'-?\d+(\.\d+)?', lines[at]))
        if found and at:
            one = self.chance.choice(found)
            lines[at] = lines[at][:one.start()] + number + lines[at][one.end():]
        return b'\n'.join(lines)

    def of_a_word(self, lines):
        at, other = self.place(lines), self.place(lines)
        words, others = lines[at].split(b' '), lines[other].split(b' ')
        place = self.chance.randrange(len(words))
        how = self.chance.random()
        if how < 0.6:
            words[place] = others[min(place, len(others) - 1)]
        elif how < 0.8:
            words.insert(place, self.chance.choice(others))
        else:
            del words[place]
        lines[at] = b' '.join(words)
        return b'\n'.join(lines)

    def of_lines(self, lines):
        at = self.place(lines)
        count = self.chance.choice((1, 1, 2, 4))
        part, how = lines[at:at + count], self.chance.randrange(4)
        if how == 0:
            del lines[at:at + count]
        elif how == 1:
            lines[at:at] = part * self.chance.choice((1, 1, 2, 8))
        elif how == 2:
            del lines[at:at + count]
            to = self.chance.randrange(len(lines) + 1)
            lines[to:to] = part
        else:
            lines[at:at + count] = reversed(part)
        return b'\n'.join(lines)

    def of_a_block(self, lines):
        blocks = blocks_of(lines)
        if not blocks:
            return self.of_lines(lines)
        first, last = self.chance.choice(blocks)
        block, how = lines[first:last + 1], self.chance.randrange(4)
        if how == 0:
            del lines[first:last + 1]
        elif how == 1:
            lines[first + 1:first + 1] = block[1:-1]
        elif how == 2:
            del lines[last], lines[first]
        else:
            to = self.chance.choice(blocks)[1]
            lines[to:to] = block if block[0].split(b' ')[0] != b'handler' else block[1:-1]
        return b'\n'.join(lines)

    def of_a_line_from_another(self, lines):
        others = self.chance.choice(self.kept).split(b'\n')
        at, count = self.chance.randrange(len(others)), self.chance.choice((1, 2, 5))
        to = self.chance.randrange(len(lines) + 1)
        lines[to:to] = others[at:at + count]
        return b'\n'.join(lines)

    def of_bytes(self, lines):
        text = bytearray(b'\n'.join(lines))
        for _ in range(self.chance.choice((1, 1, 3))):
            if text:
                text[self.chance.randrange(len(text))] = self.chance.choice(SOME_BYTES)
        return bytes(text)

    def cut(self, lines):
        text = b'\n'.join(lines)
        return text[:self.chance.randrange(len(text) + 1)]

    def of_the_version(self, lines):
        lines[0] = self.chance.choice((b'script 1', b'script 2', b'script 2', b'script 3', b'script', lines[0]))
        return b'\n'.join(lines)


def mark_of(words, status, reply):
    """What an answer shows: the status, and about how often each kind of line."""
    kinds = {}
    for line in reply[:20000].split(b'\n'):
        word = b' '.join(line.split(b' ')[:3 if line.startswith((b'event', b'limit', b'throw')) else 1])
        kinds[word] = kinds.get(word, 0) + 1
    return tuple(words[:1]), status, tuple(sorted((kind, count.bit_length()) for kind, count in kinds.items()))


def recorded(chance, script, trace):
    """A script with a recorded trace, exact or changed in a few places."""
    lines = trace.split(b'\n')
    for _ in range(chance.choice((0, 0, 1, 2))):
        at = chance.randrange(len(lines))
        how = chance.randrange(3)
        if how == 0:
            del lines[at]
        elif how == 1:
            lines.insert(at, chance.choice(lines) if lines else b'')
        elif lines[at]:
            lines[at] = lines[at][:-1] + b'9'
        lines = lines or [b'']
    return script + (b'' if script.endswith(b'\n') else b'\n') + b'trace\n' + b'\n'.join(lines)


def stream(chance, texts):
    """Lines of several pages, each behind the name of its page."""
    names, parts = [b'a', b'b', b'page-3', b'A', b'9', b'a' * 33], []
    for text in texts:
        lines, name = text.split(b'\n'), chance.choice(names[:4] if chance.random() < 0.95 else names)
        while lines:
            count = chance.choice((1, 3, 10, len(lines)))
            parts += [b'page ' + name, *lines[:count]]
            lines = lines[count:]
    return b'\n'.join(parts)


def words(chance):
    """A list of words for a job that reads a source."""
    tick = str(chance.choice((1, 1, 1, 2, 3, 5, 50, 0, 1000000, 1000001, 2 ** 64 - 1)))
    length = lambda: chance.choice(('0px', '5px', '10px', '55.5px', '-0.5px', '599.98px', '1000000px', '1000001px', '5', 'px', '', '5 px', '+5px'))
    return chance.choice(([], [], [], [], ['--check'], ['--lint'], ['--summary'], ['--print'], ['--inspect', tick],
                          ['--hit', tick, length(), length()], ['--judge'], ['--pages']))


def odd_words(chance):
    """A list of words as a shell may give it, seldom one that the program takes."""
    some = ('--check', '--lint', '--summary', '--print', '--inspect', '--hit', '--judge', '--pages', '--generate', '--generate-run', '1', '01', '+1',
            '0', '1000000', '1000001', '5px', '-0.5px', '--', '-', '', '--Check', '--check ', '\u0661', '5px\n', '--help', '18446744073709551616')
    return [chance.choice(some) for _ in range(chance.choice((1, 1, 2, 2, 3, 4, 5, 9)))]


def input_of(chance, fuzzer, trace_of):
    """(words, text) of one input of any kind; `trace_of` gives a script's trace."""
    job = words(chance)
    text = fuzzer.text()
    if job == ['--judge'] and chance.random() < 0.9:
        text = recorded(chance, text, trace_of(text))
    if job == ['--pages'] and chance.random() < 0.9:
        text = stream(chance, [text] + [fuzzer.text() for _ in range(chance.choice((0, 1, 2, 8)))])
    return job, text


def examples_in(top):
    folder = os.path.join(top, 'examples')
    return [os.path.join(folder, name) for name in sorted(os.listdir(folder)) if name.endswith('.script')]
