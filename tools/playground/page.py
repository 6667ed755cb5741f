"""The playground's page: one file of HTML with the program's module, the explanations (carried.py), the viewer of tools/view, the parts of
tools/browser that run a script in the reader's browser, the editor, the examples and the lessons. It makes no network requests."""
import base64
import json
import os
import re
import zlib

from view import data as view_data
from view import page as view_page

from . import asked, carried, lessons

HERE = os.path.dirname(os.path.abspath(__file__))
TOP = os.path.dirname(os.path.dirname(HERE))
EXAMPLES = os.path.join(TOP, 'examples')
BROWSER = os.path.join(TOP, 'tools', 'browser')
BINDING = os.path.join(TOP, 'bindings', 'js', 'mifdagus.js')
CODEMIRROR = '/usr/share/javascript/codemirror'
FIRST = 'a-card-with-a-toolbar.script'
OWN = ('storing.js', 'editor.js', 'runner.js', 'panes.js', 'lessons.js', 'beside.js', 'main.js')
LETTERS = ((0xa0, 0x250), (0x2b0, 0x530), (0x1e00, 0x1f00), (0x2000, 0x2800), (0xfe00, 0xfe10), (0xfeff, 0xff00), (0xfff0, 0xfffe),
           (0x1f300, 0x1f700))


def _part(name, folder=HERE):
    with open(os.path.join(folder, name), encoding='utf-8') as file:
        return file.read()


def _packed(data):
    squeezed = zlib.compressobj(9, zlib.DEFLATED, -15)
    return base64.b64encode(squeezed.compress(data) + squeezed.flush()).decode('ascii')


def _binding():
    """The calls of bindings/js as a part of a program that isn't a module."""
    with open(BINDING, encoding='utf-8') as file:
        text = re.sub(r'^export ', '', file.read(), flags=re.M).replace('import.meta.url', 'location.href')
    return 'const { Mifdagus, SyntaxRefusal, OutOfMemory } = (() => {\n%s\nreturn { Mifdagus, SyntaxRefusal, OutOfMemory };\n})();' % text


def worker(has_module):
    """The program of the worker."""
    calls = [_binding(), _part('module.js')] if has_module else []
    return '\n'.join([carried.whole(), _letters(), *calls, _part('worker.js')])


def _letters():
    """The names of letters that may stand in a text by mistake; those of others aren't said."""
    import unicodedata
    names = {code: unicodedata.name(chr(code), '') for begin, end in LETTERS for code in range(begin, end)}
    return 'for (const [code, name] of %s) letterNames.set(code, name);' % json.dumps(
        [[code, name] for code, name in names.items() if name], separators=(',', ':'))


def editor():
    """(program, style) of CodeMirror from Debian's package, or None if it isn't installed."""
    try:
        parts = [_part(name, CODEMIRROR) for name in ('lib/codemirror.js', 'addon/hint/show-hint.js')]
        style = [_part(name, CODEMIRROR) for name in ('lib/codemirror.css', 'addon/hint/show-hint.css')]
    except OSError:
        return None
    return '\n'.join(parts), '\n'.join(style)


def viewer():
    """The frame of 'What happens': the page of bin/view for an empty script, with what lets it show other runs."""
    empty, _ = view_data.of(b'script 1\n', 'the script')
    text = view_page.written(empty)
    style, program = _part('frame.css'), _part('frame.js')
    if text.count('</style>') != 1 or text.count('</script>') != 2:
        raise ValueError("the page of bin/view has another shape than tools/playground knows")
    return text.replace('</style>', style + '</style>').replace('</script>\n</body>', '\n' + program + '</script>\n</body>')


def examples():
    """The scripts of examples/, with a title from the name."""
    found = []
    for name in sorted(os.listdir(EXAMPLES)):
        if name.endswith('.script'):
            title = name[:-len('.script')].replace('-', ' ')
            found.append({'name': name, 'title': title[0].upper() + title[1:], 'text': _part(name, EXAMPLES)})
    return found


def classes():
    """What the rules say and what a browser does, for each class of differences, from the table of docs/BROWSERS.md."""
    found = {}
    for line in _part('docs/BROWSERS.md', TOP).splitlines():
        cells = [cell.strip() for cell in line.split('|')]
        if len(cells) > 8 and re.fullmatch(r'[a-z]+(-[a-z]+)+', cells[1]):
            found[cells[1]] = [cells[2].replace('`', ''), cells[4].replace('`', '')]
    return found


def parts(module):
    """What the page's program reads; `module` is (bytes, why it is unproved or '') or None."""
    library = editor()
    return {
        'module': None if module is None else {'code': _packed(module[0]), 'unproved': module[1]},
        'worker': _packed(worker(module is not None).encode()), 'editor': None if library is None else _packed(library[0].encode()),
        'viewer': viewer(), 'words': asked.vocabulary(), 'lessons': lessons.all_of_them(), 'examples': examples(), 'first': FIRST,
        'classes': classes()}


def written(module):
    """The whole page."""
    library = editor()
    program = [_part('text.js', os.path.join(TOP, 'tools', 'view'))] + [_part(name, BROWSER) for name in ('page.js', 'live.js', 'shown.js')]
    pieces = {'STYLE': ('' if library is None else library[1]) + _part('page.css'), 'HELP': _part('help.html'),
              'PARTS': view_page.in_json(parts(module)), 'PROGRAM': '\n'.join(program + [_part(name) for name in OWN])}
    frame = _part('page.html').split('@@')
    text = ''.join([pieces[piece] if place % 2 else piece for place, piece in enumerate(frame)])
    return text.encode('ascii', 'xmlcharrefreplace').decode('ascii')
