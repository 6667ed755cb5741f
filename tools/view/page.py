"""The page: one file of HTML with its style, its program and its data. It makes no network requests."""
import html
import json
import os

HERE = os.path.dirname(os.path.abspath(__file__))
PROGRAM = ('text.js', 'boxes.js', 'trace.js', 'sentences.js', 'story.js', 'drawing.js', 'panels.js', 'choosing.js', 'main.js')


def _part(name):
    with open(os.path.join(HERE, name), encoding='ascii') as file:
        return file.read()


def in_json(value):
    """JSON that is safe inside a script element."""
    return json.dumps(value, separators=(',', ':')).replace('<', '\\u003c')


def written(data):
    """The whole page, in pure ASCII, for an object that data.of gives."""
    frame = _part('page.html')
    parts = {'NAME': html.escape(data['name']).encode('ascii', 'xmlcharrefreplace').decode(), 'STYLE': _part('page.css'),
             'PROGRAM': '\n'.join([_part(name) for name in PROGRAM]), 'DATA': in_json(data)}
    pieces = frame.split('@@')                 # a name is between two of these marks
    return ''.join([parts[piece] if place % 2 else piece for place, piece in enumerate(pieces)])
