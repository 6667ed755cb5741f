"""Several independent pages in one stream (`--pages`).

A line `page NAME` says which page the lines after it belong to, up to the next such line.
"""
import re

from . import grammar
from .lexer import MOST_SCRIPT, Fault, TextLimit
from .judge import split_after_line_feeds
from .page import Page

MOST_PAGES = 8

_PAGE = re.compile(rb'page ([A-Za-z][A-Za-z0-9_-]{0,31})\Z')


class Refused(Exception):
    """The text isn't a stream of pages; the line says why."""

    def __init__(self, line):
        Exception.__init__(self, line)
        self.line = line


def _without_ending(line):
    if not line.endswith(b'\n'):
        return line
    return line[:-2] if line.endswith(b'\r\n') else line[:-1]


def split(text):
    """The name of each page, with its lines and their numbers in the stream."""
    if len(text) > MOST_SCRIPT:
        raise Refused('limit script %d %d' % (1 + text.count(b'\n', 0, MOST_SCRIPT), MOST_SCRIPT))
    pages, current = {}, None
    for number, line in enumerate(split_after_line_feeds(text), 1):
        named = _PAGE.match(_without_ending(line))
        if named:
            current = named.group(1).decode()
            if current not in pages and len(pages) >= MOST_PAGES:
                raise Refused('limit pages %d %d' % (number, MOST_PAGES))
            pages.setdefault(current, [])
        elif current is None:
            raise Refused('syntax 1 1')
        else:
            pages[current].append((number, line))
    if current is None:
        raise Refused('syntax 1 1')
    return pages


def _writer(written, name):
    def write(line, script_line=0, about=None):
        written.append('%s %s' % (name, line))
    return write


def run(text, language):
    """The output lines, each preceded by its page's name, and whether a page wasn't a script or met a limit."""
    written, endings, waiting = [], set(), []
    for name, lines in split(text).items():
        write = _writer(written, name)
        try:
            script = grammar.parse(b''.join([line for _, line in lines]), language)
        except (Fault, TextLimit) as refused:
            write(refused.text())
            endings.add('syntax' if isinstance(refused, Fault) else 'limit')
            continue
        page = Page(script, write)
        waiting.extend([(lines[command.line - 1][0], page, command) for command in script.commands])
    ended = set()
    for _, page, command in sorted(waiting, key=lambda item: item[0]):
        if page not in ended and not page.run_outside(command):
            ended.add(page)
            endings.add('limit')
    return written, endings
