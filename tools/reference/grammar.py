"""The lines of a script: commands, handlers and blocks (docs/SCRIPT.md, 'Commands', 'Limits' and 'The first fault of a text').

`parse` returns a Script, or raises the first Fault or TextLimit in the order of the lines; within a line the bytes come
first, then its words, then the limits `nesting` and `handlers`.
"""
from . import forms, media
from .forms import (ANY_NODE, AXIS, BOX, BOX_OR_DEVICE, DOC, ELEMENT_NODE, EVENT, HANDLER, HANDLER_OR_NONE, IO, KEY, LENGTH,
                    LISTENED, NEW, PERCENT, QUERIES, RO, ROOT, SIGNED, WHOLE, WORD)
from .lengths import read_name
from .lexer import Fault, TextLimit, check_bytes, check_size, line_count, lines_of, words_of

MOST_HANDLERS = 4096
MOST_NESTING = 16

PLAIN_COMMANDS = {
    'viewport': (LENGTH, LENGTH),
    'block': (NEW, DOC),
    'image': (NEW, DOC, LENGTH, LENGTH),
    'frame': (NEW, DOC, NEW),
    'append': (ANY_NODE, ELEMENT_NODE),
    'before': (ANY_NODE, ELEMENT_NODE, ELEMENT_NODE),
    'remove': (ELEMENT_NODE,),
    'grow': (ELEMENT_NODE, AXIS, SIGNED),
    'load': (ELEMENT_NODE, LENGTH, LENGTH),
    'ro': (NEW, DOC, HANDLER_OR_NONE),
    'ro-observe': (RO, ELEMENT_NODE, BOX),
    'ro-unobserve': (RO, ELEMENT_NODE),
    'ro-disconnect': (RO,),
    'io-observe': (IO, ELEMENT_NODE),
    'io-unobserve': (IO, ELEMENT_NODE),
    'io-disconnect': (IO,),
    'io-take': (IO,),
    'listen': (LISTENED, EVENT, HANDLER),
    'unlisten': (LISTENED, EVENT, HANDLER),
    'scroll': (ANY_NODE, SIGNED, SIGNED),
    'scroll-by': (ANY_NODE, SIGNED, SIGNED),
    'raf': (DOC, KEY, HANDLER),
    'cancel-raf': (DOC, KEY),
    'timer': (DOC, KEY, WHOLE, HANDLER),
    'clear-timer': (DOC, KEY),
    'post': (DOC, HANDLER),
    'say': (WORD,),
    'read': (ANY_NODE,),
    'each': (),
    'tick': (WHOLE,),
}
PLAIN_COMMANDS_OF_VERSION_2 = dict(PLAIN_COMMANDS, ratio=(PERCENT,))
PLAIN_COMMANDS_OF_VERSION_2['ro-observe'] = (RO, ELEMENT_NODE, BOX_OR_DEVICE)

CONDITIONS = {
    'wider': (ELEMENT_NODE, LENGTH),
    'taller': (ELEMENT_NODE, LENGTH),
    'matches': (QUERIES,),
    'attached': (ELEMENT_NODE,),
    'seen': (),
}


def plain_commands(version):
    return PLAIN_COMMANDS if version == 1 else PLAIN_COMMANDS_OF_VERSION_2


class Operand:
    """A word that has been read: its form, its value and its place in the line, the command's name being word 0."""
    __slots__ = ('form', 'value', 'word')

    def __init__(self, form, value, word):
        self.form, self.value, self.word = form, value, word


class Command:
    """A command with its operands; `each` and `when` have a body, and `when` has a condition, which `not` may negate."""
    __slots__ = ('line', 'name', 'operands', 'body', 'condition', 'turned')

    def __init__(self, line, name, operands):
        self.line, self.name, self.operands = line, name, operands
        self.body, self.condition, self.turned = None, None, False


class Handler:
    __slots__ = ('line', 'name', 'commands')

    def __init__(self, line, name):
        self.line, self.name, self.commands = line, name, []


class Language:
    """The supported part of the language: these versions, with all their properties except those in `without`."""

    def __init__(self, versions=(1, 2), without=()):
        self.versions, self.without = versions, without


WHOLE = Language()


class Script:
    def __init__(self):
        self.version = 0
        self.commands = []                # outside handlers, in order
        self.handlers = {}                # by name, in the order of their lines
        self.count = 0                    # of commands, all included


def every_command(commands):
    """These commands and those in their blocks."""
    for command in commands:
        yield command
        if command.body:
            yield from every_command(command.body)


# --- causes of faults -------------------------------------------------------------------------------------------------------

class Unfit:
    """A word that has none of the forms allowed there, or a missing word."""

    def __init__(self, word, wanted, first_words=()):
        self.word, self.wanted, self.first_words = word, wanted, first_words


class TooMany:
    """A word after the last one of its line's form."""

    def __init__(self, word):
        self.word = word


class Misplaced:
    """A line that isn't allowed there; the sentence says why."""

    def __init__(self, sentence):
        self.sentence = sentence


class BadQuery:
    """A text that isn't a media query list; the column is that in the text."""

    def __init__(self, text, column):
        self.text, self.column = text, column


class LeftOpen:
    """The script ends with these handlers or blocks open, given by their lines."""

    def __init__(self, lines):
        self.lines = lines


class NoFirstLine:
    """The script ends before a line with words."""


# --- words from left to right -----------------------------------------------------------------------------------------------

class Words:
    """The words of one line, taken from left to right."""

    def __init__(self, number, line):
        self.number, self.line, self.words, self.at = number, line, words_of(line), 0

    def next(self):
        """The next word, or None."""
        return self.words[self.at][1] if self.at < len(self.words) else None

    def column(self):
        """The column of the next word, or if there is none, the column after the last word."""
        if self.at < len(self.words):
            return self.words[self.at][0]
        column, word = self.words[-1]
        return column + len(word)

    def fault(self, cause):
        return Fault(self.number, self.column(), cause)

    def take(self, form):
        """The value of the next word, which must have this form."""
        word = self.next()
        value = None if word is None else form.read(word)
        if value is None:
            raise self.fault(Unfit(word, form))
        self.at += 1
        return value

    def operand(self, form):
        place = self.at
        return Operand(form, self.take(form), place)

    def end(self):
        if self.next() is not None:
            raise self.fault(TooMany(self.next()))


def _read_set(words, version, without):
    node = words.operand(ELEMENT_NODE)
    property_ = words.operand(forms.property_form(version, without))
    return (node, property_, words.operand(forms.value_form(property_.value)))


def _words_until(words, stops, form):
    """The words before the next of these, joined by one space."""
    place, taken = words.at, []
    while words.next() is not None and words.next() not in stops:
        taken.append(words.next())
        words.at += 1
    return Operand(form, b' '.join(taken), place)


def _read_intersection_observer(words, version):
    operands = [words.operand(NEW), words.operand(DOC), words.operand(HANDLER_OR_NONE)]
    words.take(forms.keywords('root'))
    operands.append(words.operand(ROOT))
    words.take(forms.keywords('margin'))
    stops = (b'threshold',) if version == 1 else (b'threshold', b'scroll')
    operands.append(_words_until(words, stops, forms.MARGIN))
    if words.next() == b'scroll':
        words.at += 1
        operands.append(_words_until(words, stops, forms.SCROLL_MARGIN))
    else:
        operands.append(Operand(forms.SCROLL_MARGIN, None, words.at))
    words.take(forms.keywords('threshold'))
    place, thresholds = words.at, []
    while words.next() is not None:
        thresholds.append(words.take(forms.NUMBER))
    operands.append(Operand(forms.THRESHOLDS, thresholds, place))
    return tuple(operands)


def _read_media(words):
    operands = [words.operand(NEW), words.operand(DOC)]
    if words.next() is None:
        raise words.fault(Unfit(None, forms.QUERY))
    start, place = words.column(), words.at
    last, word = words.words[-1]
    text = words.line[start - 1:last - 1 + len(word)]
    bad = media.bad_column(text)
    if bad is not None:
        raise Fault(words.number, start + bad - 1, BadQuery(text, bad))
    words.at = len(words.words)
    operands.append(Operand(forms.QUERY, media.parse(text), place))
    return tuple(operands)


def _read_condition(words):
    """(whether it is negated, the condition's name, its operands)."""
    turned = words.next() == b'not'
    if turned:
        words.at += 1
    asked = words.take(forms.keywords(*CONDITIONS) if turned else forms.keywords('not', *CONDITIONS))
    return turned, asked, tuple([words.operand(form) for form in CONDITIONS[asked]])


def read_command(words, version, without=()):
    """The command of a line whose first word comes next; the properties in `without` aren't supported."""
    name = words.next().decode('ascii')
    words.at = 1
    if name == 'when':
        turned, asked, operands = _read_condition(words)
        command = Command(words.number, name, operands)
        command.turned, command.condition = turned, asked
    elif name == 'set':
        command = Command(words.number, name, _read_set(words, version, without))
    elif name == 'io':
        command = Command(words.number, name, _read_intersection_observer(words, version))
    elif name == 'media':
        command = Command(words.number, name, _read_media(words))
    elif name in plain_commands(version):
        operands = tuple([words.operand(form) for form in plain_commands(version)[name]])
        command = Command(words.number, name, operands)
    else:
        words.at = 0
        raise words.fault(Unfit(words.next(), None, first_words(version)))
    words.end()
    return command


def form_of(name, version):
    """A command's forms as docs/SCRIPT.md writes them; `when` has one for each condition."""
    if name == 'when':
        return [' '.join(['when [not] ' + asked] + [form.shown for form in operands]) for asked, operands in CONDITIONS.items()]
    special = {'handler': 'handler NAME', 'end': 'end', 'script': 'script %d' % version, 'set': 'set NODE PROPERTY VALUE',
               'media': 'media NAME DOC QUERY',
               'io': 'io NAME DOC HANDLER root NODE margin WORD* %sthreshold NUMBER*' % (
                   '' if version == 1 else '[scroll WORD*] ')}
    if name in special:
        return [special[name]]
    return [' '.join([name] + [form.shown for form in plain_commands(version)[name]])]


def command_names(version):
    """The names of all commands."""
    return sorted([*plain_commands(version), 'set', 'io', 'media', 'when'])


def first_words(version):
    """The words that a line after the first may begin with."""
    return sorted([*command_names(version), 'handler', 'end'])


# --- the script -------------------------------------------------------------------------------------------------------------

class _Open:
    """A handler or block that isn't closed by an `end` yet."""

    def __init__(self, what, line, commands):
        self.what, self.line, self.commands = what, line, commands


class _Reader:
    """Reads the lines with words in order."""

    def __init__(self, language):
        self.language, self.script, self.open = language, Script(), []

    def first_line(self, words):
        words.take(forms.keywords('script'))
        self.script.version = int(words.take(forms.keywords(*[str(version) for version in self.language.versions])))
        words.end()

    def line(self, words):
        first = words.next()
        if first == b'handler':
            self.handler(words)
        elif first == b'end':
            self.end(words)
        elif first == b'tick' and self.open:
            raise words.fault(Misplaced('A `tick` is allowed only outside handlers and blocks, but %s.' % self.open_said()))
        else:
            self.command(words)

    def open_said(self):
        return 'the %s on line %d has no `end` yet' % (self.open[-1].what, self.open[-1].line)

    def handler(self, words):
        if self.open:
            raise words.fault(Misplaced("A handler can't be inside another handler or a block, but %s." % self.open_said()))
        words.at = 1
        handlers = self.script.handlers
        if words.next() is not None and read_name(words.next()) in handlers:
            raise words.fault(Misplaced('The handler on line %d has this name already; the names of handlers must differ.'
                                        % handlers[read_name(words.next())].line))
        name = words.take(HANDLER)
        words.end()
        if len(handlers) >= MOST_HANDLERS:
            raise TextLimit('handlers', words.number, MOST_HANDLERS, [handler.line for handler in handlers.values()])
        handlers[name] = Handler(words.number, name)
        self.open.append(_Open('handler', words.number, handlers[name].commands))

    def end(self, words):
        if not self.open:
            raise words.fault(Misplaced('There is no open handler or block for this `end` to close.'))
        words.at = 1
        words.end()
        self.open.pop()

    def command(self, words):
        command = read_command(words, self.script.version, self.language.without)
        commands = self.open[-1].commands if self.open else self.script.commands
        commands.append(command)
        self.script.count += 1
        if command.name in ('each', 'when'):
            blocks = [opened.line for opened in self.open if opened.what == 'block']
            if len(blocks) >= MOST_NESTING:
                raise TextLimit('nesting', words.number, MOST_NESTING, blocks)
            command.body = []
            self.open.append(_Open('block', words.number, command.body))


def parse(text, language=WHOLE):
    """The script of these bytes, with the supported part of the language."""
    check_size(text)
    reader = _Reader(language)
    for number, line, ended in lines_of(text):
        check_bytes(number, line, ended)
        words = Words(number, line)
        if words.next() is None:
            continue
        if reader.script.version:
            reader.line(words)
        else:
            reader.first_line(words)
    if not reader.script.version:
        raise Fault(line_count(text) + 1, 1, NoFirstLine())
    if reader.open:
        raise Fault(line_count(text) + 1, 1, LeftOpen([opened.line for opened in reader.open]))
    return reader.script
