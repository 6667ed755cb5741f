"""How commands, callbacks and events run (the rules 'Callbacks' and 'Events' of docs/RULES.md; docs/SCRIPT.md, 'The order of
exceptions'; WebIDL, invoking callbacks; DOM, 2.7 to 2.10).
"""
from . import update
from .commands import CONDITIONS, EFFECTS
from .forms import DOCUMENT, HANDLER_NAME, LISTENED, NEW_NAME, NONE, TARGET
from .refusals import Limit, Throw
from .world import ACTIVE, Document, World


def article(kind):
    return ('an ' if kind[0] in 'aeiou' else 'a ') + kind


class Page:
    """A world, and the run of a script on it.

    Each line of the trace goes to `write(text, line, about)`, with the script's line of the running command and what the trace
    line is about: an entry with its observer, a Throw, a Limit, a loop error, or None.
    """

    def __init__(self, script, write):
        self.script, self.write = script, write
        self.world = World(script.version)
        self.line = 0                     # of the running command
        self.entries = None               # of the running callback: a list, or None
        self.entry = None                 # the current one, in an `each`

    def tell(self, text, about=None):
        self.write(text, self.line, about)

    def run(self):
        """Runs the script to its end, or to a limit, whose line is written; returns whether no limit was met."""
        for command in self.script.commands:
            if not self.run_outside(command):
                return False
        return True

    def run_outside(self, command):
        """Runs one command outside handlers; returns whether no limit was met."""
        try:
            self.run_command(command)
        except Limit as met:
            self.line = met.line
            self.tell(met.text(), met)
            return False
        return True

    # --- operands, from left to right ---------------------------------------------------------------------------------------

    def look_up_all(self, command):
        values, new = [], set()
        for operand in command.operands:
            names = operand.form.names
            if names is None:
                values.append(operand.value)
            elif names == NEW_NAME:
                values.append(self.new_name(operand, new))
            elif names == HANDLER_NAME:
                values.append(self.handler(operand))
            elif operand.form is LISTENED:
                values.append(self.listened(operand))
            else:
                values.append(self.thing(operand, operand.value, names))
        return values

    def new_name(self, operand, new):
        """A name that is free in the world and isn't used twice as a new name in this command."""
        name = operand.value
        if name in self.world.names:
            raise Throw('TypeError', operand, '`%s` is taken: it is %s' % (name, self.said_of(self.world.names[name])))
        if name in new:
            raise Throw('TypeError', operand, '`%s` occurs twice as a new name in this command' % name)
        new.add(name)
        return name

    def handler(self, operand):
        if operand.value == NONE:
            return None
        handler = self.script.handlers.get(operand.value)
        if handler is None:
            raise Throw('ReferenceError', operand, 'the script has no handler `%s`' % operand.value)
        return handler

    def listened(self, operand):
        """(thing, whether its window is meant)."""
        name, window = operand.value
        return (self.thing(operand, name, (DOCUMENT,) if window else operand.form.names), window)

    def thing(self, operand, name, kinds):
        if name == NONE:
            return NONE
        if name == TARGET:
            if self.entry is None:
                raise Throw('ReferenceError', operand, 'outside an `each` there is no current entry, so no `$target`')
            return self.entry.target      # an element, which each such operand may name
        thing = self.world.names.get(name)
        if thing is None:
            raise Throw('ReferenceError', operand, '`%s` is not defined' % name)
        if thing.what not in kinds:
            raise Throw('TypeError', operand, '`%s` is %s, but %s is expected' % (
                name, self.said_of(thing), ', '.join([article(kind) for kind in kinds[:-2]]
                                                     + [' or '.join([article(kind) for kind in kinds[-2:]])])))
        return thing

    @staticmethod
    def said_of(thing):
        if thing.line is None:
            return "the page's own document, there from the start"
        return '%s, created on line %d' % (article(getattr(thing, 'kind', thing.what)), thing.line)

    # --- commands -----------------------------------------------------------------------------------------------------------

    def begin(self, command):
        most = self.world.most['commands']
        if self.world.begun >= most:
            raise Limit('commands', most)
        self.world.begun += 1

    def run_command(self, command):
        """Begins and runs one command with its block; returns whether it threw."""
        outer, self.line = self.line, command.line
        try:
            self.begin(command)
            if command.name == 'each':
                return self.run_each(command.body)
            if command.name == 'when':
                return self.holds(command) and self.run_block(command.body)
            if command.name == 'tick':
                update.tick(self, command, command.operands[0].value)
            else:
                self.do(command)
            return False
        except Throw as thrown:
            self.tell('throw %d %s' % (command.line, thrown.kind), thrown)
            return True
        except Limit as met:
            if met.line is None:
                met.line = command.line
            raise
        finally:
            self.line = outer

    def do(self, command):
        """Runs a command without a block: operands, exceptions, limits, effect."""
        EFFECTS[command.name](self, command, *self.look_up_all(command))

    def holds(self, command):
        return CONDITIONS[command.condition](self, *self.look_up_all(command)) != command.turned

    def run_block(self, commands):
        """Runs commands, up to the first that throws; returns whether one did."""
        return any(self.run_command(command) for command in commands)

    def run_each(self, body):
        """Runs the block once for each entry of the callback."""
        outer = self.entry
        try:
            for entry in self.entries or ():
                self.entry = entry
                if self.run_block(body):
                    return True
            return False
        finally:
            self.entry = outer

    # --- callbacks and events -----------------------------------------------------------------------------------------------

    def call(self, document, handler, entries=None, lines=()):
        """Invokes a callback of a document: writes the lines of its entries, and runs its handler, if it has one."""
        if document.state is not ACTIVE:
            return
        for line, about in lines:
            self.tell(line, about)
        if handler is None:
            return
        outer = self.entries, self.entry
        self.entries, self.entry = entries, None
        try:
            self.run_block(handler.commands)
        finally:
            self.entries, self.entry = outer

    def fire(self, line, thing, event):
        self.tell(line)
        self.dispatch((thing, False), event)

    def dispatch(self, listened, event):
        """Copies the listeners, and calls each that is still there at its turn."""
        thing = listened[0]
        listeners = self.world.listeners
        for listener in [known for known in listeners.get(listened, ()) if known.event == event]:
            if listener in listeners.get(listened, ()):
                self.call(thing if isinstance(thing, Document) else thing.document, listener.handler)
