"""Lines `throw`: which operand, what it names, what is wanted, and the rule of the exception."""
from reference import forms
from reference.grammar import every_command

from . import hints
from .pointing import marked_word
from .wording import listed

_LOOKED_UP = 'Operands are looked up from left to right as a command begins: '
_RULES = {
    'ReferenceError': _LOOKED_UP + 'an unknown name, `$target` outside an `each` or an unknown handler throws '
                      'ReferenceError.',
    'TypeError': _LOOKED_UP + 'a name of another kind, or a new name that is taken, throws TypeError.',
    'HierarchyRequestError': "An element can't be inserted into itself or into one of its descendants, and a document can have "
                             'only one root element (DOM, 4.2.3).',
    'NotFoundError': 'The sibling that `before` names must be a child of the parent that it names (DOM, 4.2.3).',
    'SyntaxError': 'A margin has up to four parts, each a length or a percentage, optionally with `-` before it; the unit is '
                   'required, even in `0px` (Intersection Observer, 2.2). It is checked before a scroll margin, which version 2 of '
                   'the language has, and before the thresholds.',
    'RangeError': None,
}
_OWN_RULES = {
    'grow': 'The specific exceptions of a command come after its operands are looked up: `grow` adds to a width or height in '
            'pixels, and throws TypeError for any other.',
    'load': 'The specific exceptions of a command come after its operands are looked up: `load` gives an image its natural size, '
            'and throws TypeError for any other element.',
    'raf': 'A key is free again just before its callback is called, or after `cancel-raf`; requesting a callback with a key in '
           'use throws TypeError.',
    'timer': 'A key is free again just before its callback is called, or after `clear-timer`; setting a timer with a key in use '
             'throws TypeError.',
    'tick': 'A tick may have the same time as the one before it, but not an earlier one.',
    'io': 'A threshold is a number from 0 to 1, both included. Thresholds are checked after the margin.',
    'when': '`seen` says whether the current intersection entry is intersecting: it has a meaning in an `each` in the handler of '
            'an intersection observer.',
}


def explain(told, script, commands, said):
    """The lines of the explanation; `commands` is what the script holds, by line. What stands in the set `said` already, of
    the rules and of how the script goes on, isn't said again."""
    thrown, line = told.about, told.line
    command = commands.by_line[line]
    explained = ['line %d of the script:' % line]
    if thrown.operand is None:
        explained += ['  ' + shown for shown in marked_word(script, line, 1 + command.turned, thrown.sentence)]
    else:
        explained += ['  ' + shown for shown in marked_word(script, line, thrown.operand.word, thrown.sentence)]
        explained += _wanted(thrown)
        explained += _names(thrown, commands)
    for sentence in (_rule(thrown, command), _goes_on(commands.handler_of.get(line), commands.outermost_of.get(line), line)):
        if sentence not in said:
            said.add(sentence)
            explained.append(sentence)
    return explained


def _wanted(thrown):
    return ['Expected %s.' % thrown.operand.form.said] if thrown.kind == 'ReferenceError' else []


def _names(thrown, commands):
    """Where a name that isn't there is given, and names that are close."""
    operand = thrown.operand
    if thrown.kind != 'ReferenceError' or operand.value in (forms.TARGET, forms.NONE):
        return []
    name = operand.value[0] if isinstance(operand.value, tuple) else operand.value
    if operand.form.names == forms.HANDLER_NAME:
        near = hints.close(name, list(commands.script.handlers))
        if not near:
            handlers = list(commands.script.handlers)[:10]
            return ['The script has the handler%s %s.' % ('' if len(handlers) == 1 else 's',
                                                          listed(['`%s`' % known for known in handlers]))
                    if handlers else 'The script has no handlers.']
        return [hints.did_you_mean(near)]
    given = commands.given_in.get(name)
    if given:
        return ['Line %d, `%s`, would create it, but had not been carried out by then.' % (given, commands.text_of(given))]
    if name in commands.script.handlers:
        return ['There is a handler with this name, but the names of handlers are a namespace of their own.']
    near = hints.close(name, ['top'] + list(commands.given_in))
    return [hints.did_you_mean(near)] if near else []


def _rule(thrown, command):
    own = _OWN_RULES.get(command.name)
    if thrown.kind == 'RangeError':
        return own
    is_own = command.name in ('grow', 'load', 'raf', 'timer') and thrown.kind == 'TypeError' and (
        thrown.operand is command.operands[{'load': 0}.get(command.name, 1)]) and ' is expected' not in thrown.sentence
    if is_own or (command.name == 'when' and thrown.operand is None):
        return own
    return _RULES[thrown.kind]


def _goes_on(handler, outermost, line):
    if handler is not None:
        return 'The command changed nothing. The handler `%s` ends here; what called it continues.' % handler.name
    if outermost is not None and outermost.line != line:
        return 'The command changed nothing. The `%s` on line %d ends here, and the script continues after it.' % (
            outermost.name, outermost.line)
    return 'The command changed nothing, and the script continues.'


class Commands:
    """What a script holds, by line."""

    def __init__(self, parsed, script):
        self.script, self._source = parsed, script
        self.by_line, self.handler_of, self.outermost_of, self.given_in = {}, {}, {}, {}
        for outermost in parsed.commands:
            for command in every_command([outermost]):
                self._add(command)
                self.outermost_of[command.line] = outermost
        for handler in parsed.handlers.values():
            for command in every_command(handler.commands):
                self._add(command)
                self.handler_of[command.line] = handler

    def _add(self, command):
        self.by_line[command.line] = command
        for operand in command.operands:
            if operand.form is forms.NEW:
                self.given_in.setdefault(operand.value, command.line)

    def text_of(self, line):
        return self._source.command(line)
