"""The forms of words (docs/SCRIPT.md, 'Words' and 'Commands'), with their descriptions.

A form's reader returns None for a word that doesn't have the form. `names` says what an operand of the form must name as its
command begins: 'new' for a name that is free, 'handler', or kinds of things; it is None for a plain value.
"""
import functools

from . import styles
from .lengths import read_length, read_name, read_number, read_percent, read_signed, read_whole

TARGET = '$target'
NONE = '-'
EVENTS = ('resize', 'scroll', 'error', 'change')

DOCUMENT, ELEMENT = 'document', 'element'
RESIZE_OBSERVER, INTERSECTION_OBSERVER, QUERY_LIST = 'resize observer', 'intersection observer', 'query list'
NEW_NAME, HANDLER_NAME = 'new', 'handler'

NAME_SHAPE = 'A name is a letter followed by letters, digits, `_` or `-`, 32 bytes at most.'
LENGTH_SHAPE = 'It has up to 7 digits, optionally a point and one or two digits, then `px`; up to 1000000px.'


class Form:
    """`shown` is the form's name in docs/SCRIPT.md, `said` describes it, and `shape` is a sentence on how it is written."""

    def __init__(self, shown, read, said, names=None, keywords=(), shape=None):
        self.shown, self.read, self.said, self.names, self.keywords, self.shape = shown, read, said, names, keywords, shape


def _node(word):
    return TARGET if word == b'$target' else read_name(word)


def _or_none(read):
    return lambda word: NONE if word == b'-' else read(word)


def _listened(word):
    """(name, whether it means a document's window)."""
    window = word.startswith(b'@')
    name = read_name(word[1:]) if window else _node(word)
    return None if name is None else (name, window)


def keywords(*words):
    """One of these words."""
    def read(word):
        text = word.decode('ascii', 'replace')
        return text if text in words else None
    quoted = ['`%s`' % word for word in words]
    said = ' or '.join([', '.join(quoted[:-1]), quoted[-1]]) if len(words) > 1 else quoted[0]
    return Form('|'.join(words), read, said, keywords=words)


def _name(said, names, shown='NAME'):
    return Form(shown, read_name, said, names, shape=NAME_SHAPE)


def _node_form(said, *names):
    return Form('NODE', _node, '%s: its name, or `$target` in an `each`' % said, names, shape=NAME_SHAPE)


NEW = _name('a new name', NEW_NAME)
DOC = _name('the name of a document', (DOCUMENT,), 'DOC')
RO = _name('the name of a resize observer', (RESIZE_OBSERVER,))
IO = _name('the name of an intersection observer', (INTERSECTION_OBSERVER,))
QUERIES = _name('the name of a query list', (QUERY_LIST,))
HANDLER = _name('the name of a handler', HANDLER_NAME, 'HANDLER')
HANDLER_OR_NONE = Form('HANDLER', _or_none(read_name), 'the name of a handler, or `-` for none', HANDLER_NAME,
                       shape=NAME_SHAPE)
ELEMENT_NODE = _node_form('an element', ELEMENT)
ANY_NODE = _node_form('an element or a document', ELEMENT, DOCUMENT)
ROOT = Form('NODE', _or_none(_node), 'the root: an element or a document, or `-` for the implicit root', (ELEMENT, DOCUMENT),
            shape=NAME_SHAPE)
LISTENED = Form('TARGET', _listened, 'an element, a document or a query list, or `@DOC` for the window of a document',
                (ELEMENT, DOCUMENT, QUERY_LIST), shape=NAME_SHAPE)
KEY = _name('a key', None, 'KEY')
WORD = _name('a word to write', None)
LENGTH = Form('LENGTH', read_length, 'a length', shape=LENGTH_SHAPE)
SIGNED = Form('SIGNED', read_signed, 'a length, optionally with `-` before it', shape=LENGTH_SHAPE)
PERCENT = Form('PERCENT', read_percent, 'a percentage',
               shape='It has up to 7 digits, optionally a point and one or two digits, then `%`; up to 10000%.')
WHOLE = Form('WHOLE', read_whole, 'a time in milliseconds',
             shape='It is `0`, or digits without a leading zero, up to 1000000000000.')
NUMBER = Form('NUMBER', read_number, 'a threshold',
              shape='It has up to 9 digits, optionally a point and up to four digits, and optionally `-` before it.')
EVENT = keywords(*EVENTS)
BOX = keywords('content', 'border')
BOX_OR_DEVICE = keywords('content', 'border', 'device')
AXIS = keywords('width', 'height')
QUERY = Form('QUERY', None, 'a media query')
MARGIN = Form('WORD*', None, 'the words of a margin')
SCROLL_MARGIN = Form('WORD*', None, 'the words of a scroll margin')
THRESHOLDS = Form('NUMBER*', None, 'thresholds')


@functools.lru_cache(16)
def property_form(version, without=()):
    names = styles.known(version, without)

    def read(word):
        text = word.decode('ascii', 'replace')
        return text if text in names else None
    return Form('PROPERTY', read, 'a style property', keywords=tuple(names))


@functools.lru_cache(128)
def value_form(property_):
    row = styles.PROPERTIES[property_]

    def read(word):
        value = row.values.read(word)
        return None if value is None else (row.fields, value)
    known = row.values.forms()
    said = ' or '.join([', '.join(known[:-1]), known[-1]]) if len(known) > 1 else known[0]
    return Form('VALUE', read, 'a value of `%s`: %s' % (property_, said), keywords=row.values.keywords)
