"""The certificates of a script's resize loops, from the commands in its loop handlers (docs/LOOPS.md). The crate `loop_lint` defines
and proves them.
"""
from .grammar import every_command

MOVES = ('append', 'before', 'remove')
CHANGES_OF_SIZE = ('viewport', 'ratio', 'set', 'grow', 'load', 'ro-observe')
VERDICTS = (('steady', MOVES), ('quiet', MOVES + CHANGES_OF_SIZE))


def loop_handlers(script):
    """The handlers that an `ro` command anywhere in the script names."""
    bodies = [script.commands] + [handler.commands for handler in script.handlers.values()]
    named = {command.operands[2].value for body in bodies for command in every_command(body) if command.name == 'ro'}
    return [handler for handler in script.handlers.values() if handler.name in named]


def blamed(script, forbidden):
    """The lines of the commands in loop handlers that a verdict forbids, in order."""
    return sorted([command.line for handler in loop_handlers(script) for command in every_command(handler.commands)
                   if command.name in forbidden])


def verdicts(script):
    lines = []
    for verdict, forbidden in VERDICTS:
        at = blamed(script, forbidden)
        lines.append('un%s %d' % (verdict, at[0]) if at else verdict)
    return lines
