"""Exceptions and limits of commands (docs/SCRIPT.md, 'The order of exceptions'; docs/HOSTILE.md)."""


class Throw(Exception):
    """A command throws. `operand` is the operand at fault, or None; `sentence` says why."""

    def __init__(self, kind, operand, sentence):
        Exception.__init__(self, kind, operand, sentence)
        self.kind, self.operand, self.sentence = kind, operand, sentence


class Limit(Exception):
    """A command meets a limit. The line is set by the command that met it; `parent` is given only for `depth`."""

    def __init__(self, kind, number, parent=None):
        Exception.__init__(self, kind, number)
        self.kind, self.number, self.parent, self.line = kind, number, parent, None

    def text(self):
        return 'limit %s %d %d' % (self.kind, self.line, self.number)
