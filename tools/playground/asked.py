"""What the playground's editor asks: the words that may come next, what begins where, and the lines that `--lint` blames. What can
be shown in a browser, and the classes of what it shows, come from tools/browser. The page has this module translated (translation.py)."""
import os
import sys

HERE = os.path.dirname(os.path.abspath(__file__))
sys.path.insert(0, os.path.join(os.path.dirname(HERE), 'browser'))
sys.path.insert(0, os.path.dirname(HERE))

import engines
import scripts
from explain import runs
from explain.report import Trace, explained          # which the worker sets aside while it asks for what is unexplained
from models import classes as engine_classes
from reference import available, forms, grammar, lexer, lint, styles

MOST_OPTIONS = 200
MOST_LINES = 20000
_PLAIN = {'LENGTH': ('10px', '100px'), 'SIGNED': ('10px', '-10px'), 'PERCENT': ('50%', '200%'), 'WHOLE': ('0', '16'), 'NUMBER': ('0',
    '0.5', '1')}


class _Known:
    """The names that the lines give, by what they name."""

    def __init__(self):
        self.names = {forms.DOCUMENT: ['top'], forms.ELEMENT: [], forms.RESIZE_OBSERVER: [], forms.INTERSECTION_OBSERVER: [],
                      forms.QUERY_LIST: [], forms.HANDLER_NAME: []}

    def add(self, kind, name):
        if name not in self.names[kind]:
            self.names[kind].append(name)

    def note(self, command):
        names = [operand.value for operand in command.operands if operand.form is forms.NEW]
        kind = {'block': forms.ELEMENT, 'image': forms.ELEMENT, 'frame': forms.ELEMENT, 'ro': forms.RESIZE_OBSERVER,
                'io': forms.INTERSECTION_OBSERVER, 'media': forms.QUERY_LIST}.get(command.name)
        if kind is not None and names:
            self.add(kind, names[0])
        if command.name == 'frame' and len(names) > 1:
            self.add(forms.DOCUMENT, names[1])


def _version(text):
    for _, line, _ in lexer.lines_of(text):
        words = lexer.words_of(line)
        if words:
            return 2 if [word for _, word in words[:2]] == [b'script', b'2'] else 1
    return 0


def _known(text, version, without):
    """The names given by the lines that can be read, except line `without`."""
    known, count = _Known(), 0
    for number, line, _ in lexer.lines_of(text):
        count += 1
        words = grammar.Words(number, line)
        if words.next() is None or number == without or count > MOST_LINES:
            continue
        if words.next() == b'handler':
            if len(words.words) > 1:
                known.add(forms.HANDLER_NAME, words.words[1][1].decode('ascii'))
            continue
        try:
            known.note(grammar.read_command(words, version))
        except lexer.Fault:
            continue
    return known


def _wanted(begun, version):
    """What the grammar wants after these words of a line: a form, or the first words of lines, or None."""
    words = grammar.Words(1, begun)
    try:
        if words.next() is None:
            return grammar.first_words(version)
        if words.next() in (b'handler', b'end', b'script'):
            return None
        grammar.read_command(words, version)
    except lexer.Fault as fault:
        cause = fault.cause
        if isinstance(cause, grammar.Unfit) and cause.word is None:
            return cause.wanted
    return None


def _fitting(form, known):
    """(word, what it is) for the words that fit a form."""
    said = form.said.partition(':')[0].replace('`', '') if form.shown in ('VALUE', 'PROPERTY') else ''
    found = [(word, said) for word in form.keywords]
    if form.names == forms.HANDLER_NAME:
        found += [(name, 'handler') for name in known.names[forms.HANDLER_NAME]]
        if form is forms.HANDLER_OR_NONE:
            found.append(('-', 'no handler'))
    elif form.names is not None and form.names != forms.NEW_NAME:
        found += [(name, kind) for kind in form.names for name in known.names[kind]]
        if form.shown == 'NODE':
            found.append(('$target', "the current entry's target"))
        if form is forms.ROOT:
            found.append(('-', 'the implicit root'))
        if form is forms.LISTENED:
            found += [('@' + name, 'window') for name in known.names[forms.DOCUMENT]]
    examples = ('100px', '50%') if form.shown == 'VALUE' else _PLAIN.get(form.shown, ())
    return found + [(word, 'an example') for word in examples if form.read(word.encode()) is not None]


def completions(text, number, column):
    """[where the word begins, (word, what it is), ..] for the place after `column` letters of a line; None if nothing is known."""
    lines = text.split(b'\n')
    line = lines[number - 1][:column] if 0 < number <= len(lines) else b''
    start = len(line)
    while start and line[start - 1:start] not in (b' ', b'\t'):
        start -= 1
    begun, word = line[:start], line[start:].decode('ascii', 'replace')
    version = _version(text)
    if not version:
        options = [('script %d' % known, 'version %d of the language' % known) for known in available.VERSIONS]
    else:
        wanted = _wanted(begun, version)
        if wanted is None:
            return None
        if isinstance(wanted, list):
            options = [(known, ', or '.join(grammar.form_of(known, version)[:1])) for known in wanted]
        else:
            options = _fitting(wanted, _known(text, version, number))
    return [start] + [option for option in options if option[0].startswith(word)][:MOST_OPTIONS]


def blamed(text):
    """(verdict, lines that stand in its way) for the verdicts of `--lint`, or None if the text isn't a script."""
    try:
        script = grammar.parse(text, available.LANGUAGE)
    except (lexer.Fault, lexer.TextLimit):
        return None
    return [(verdict, lint.blamed(script, forbidden)) for verdict, forbidden in lint.VERDICTS]


def unexplained(text, run):
    """The trace of a script without its explanations; `run` is the reference's over it. For a text that is refused, the whole trace."""
    if run is None:
        return explained(text, run)
    trace = Trace(text)
    written = runs.Proved(text) if runs.is_built() else None
    trace.status = run.status if written is None else written.status
    for line in [told.text for told in run.told] if written is None else written.lines:
        trace.add(line)
    return trace


def plan(text):
    """What tools/browser/page gives its page for a script: its items, the size of the viewport, and whether it runs in a frame; or why it
    can't be shown in a running browser."""
    try:
        found = engines.planned(scripts.read_script(text.decode('latin-1')))
    except (scripts.Refused, engines.NotShown) as refused:
        return {'refused': refused.args[0]}
    if not found['frame'] and not found['window']:
        return {'refused': engines.NO_FRAME}
    if not found['steady']:
        return {'refused': engines.NO_RATIO}
    if found['ratio'] != 1:
        return {'refused': "only 'tools/browser/run' can show a ratio other than 100%"}
    return {'script': found['script'], 'size': found['size'], 'frame': found['frame']}


def classes(text, engine, told):
    """The names of the classes in which a browser's trace differs from the rules', or None if the engine's model gives another one."""
    found = engine_classes.classes_of(text.decode('latin-1'), engine, told)
    return None if found is None else sorted(found)


def vocabulary():
    """The words of the language by version, for colouring."""
    found = {}
    for version in available.VERSIONS:
        words = set(grammar.CONDITIONS)
        for form in (forms.EVENT, forms.BOX_OR_DEVICE, forms.AXIS):
            words.update(form.keywords)
        for name in styles.known(version):
            words.update(styles.PROPERTIES[name].values.keywords)
        words.update(['not', 'root', 'margin', 'scroll', 'threshold', 'all', 'screen', 'print', 'and', 'or', 'only'])
        found[version] = {'first': ['script'] + grammar.first_words(version), 'properties': styles.known(version),
                          'words': sorted(words)}
    return found


def forms_of(version):
    """The forms of each command, as docs/SCRIPT.md writes them."""
    return {name: grammar.form_of(name, version) for name in grammar.first_words(version)}
