"""Reads scripts for a page with the grammar of tools/reference, so that only valid scripts get to a browser."""
import os
import sys

sys.path.insert(0, os.path.dirname(os.path.dirname(os.path.abspath(__file__))))

from reference import grammar, lexer
from reference.page import Page


class Refused(Exception):
    """The text isn't a script, or can't be read."""


def operands(line, name):
    """The words after a command's name; a media query list, as it is written, is one of them."""
    words = lexer.words_of(line)
    if name == 'media':
        start, last = words[3][0], words[-1]
        words[3:] = [(start, line[start - 1:last[0] - 1 + len(last[1])])]
    return [word.decode('ascii') for _, word in words[1:]]


def items(commands, lines):
    """Commands in the form for the page, those of a block inside the command that it belongs to."""
    made = []
    for command in commands:
        made.append({'op': command.name, 'args': operands(lines[command.line], command.name), 'line': command.line})
        if command.body is not None:
            made[-1]['body'] = items(command.body, lines)
    return made


def read_script(text):
    """The items and handlers of a script, in the form for the page."""
    source = text.encode('latin-1')
    try:
        script = grammar.parse(source)
    except (lexer.Fault, lexer.TextLimit) as refused:
        raise Refused("'%s'; bin/explain explains it" % refused.text())
    lines = {number: line for number, line, _ in lexer.lines_of(source)}
    return {'version': script.version, 'items': items(script.commands, lines),
            'handlers': {name: items(handler.commands, lines) for name, handler in script.handlers.items()}}


def limit_of(text):
    """The limit that a script meets by the rules, or None."""
    lines = []
    Page(grammar.parse(text.encode('latin-1')), lambda line, script_line, about: lines.append(line)).run()
    return lines[-1].split()[1] if lines and lines[-1].startswith('limit ') else None


def commands_of(script):
    """All commands of a script, including those in handlers and blocks."""
    waiting = [script['items']] + list(script['handlers'].values())
    while waiting:
        for command in waiting.pop():
            yield command
            waiting.append(command.get('body', []))


def read_file(path):
    """A script's text; raises Refused if it can't be read."""
    try:
        with open(path, encoding='latin-1', newline='') as file:
            return file.read()
    except OSError as e:
        raise Refused(e.strerror)
