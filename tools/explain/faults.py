"""Lines `syntax`: what stands there, and what may stand there."""
import re

from reference import available, grammar, lexer, media

from . import foreign, hints, slips, source
from .pointing import marked
from .wording import counted

_QUERY_WORDS = ('all', 'screen', 'print', 'and', 'or', 'not', 'only', 'width', 'min-width', 'max-width', 'height', 'min-height',
                'max-height', 'orientation', 'portrait', 'landscape')
_QUERY_FORMS = ['A media query has one of these forms; several are separated by commas:', '  [not|only] all|screen|print [and (FEATURE)]*',
                '  (FEATURE) [and (FEATURE)]*', '  (FEATURE) [or (FEATURE)]*', '  not (FEATURE)',
                'A FEATURE is `width: LENGTH` or `height: LENGTH`, optionally with `min-` or `max-` before it, or '
                '`orientation: portrait` or `orientation: landscape`.']


def explain(fault, script):
    """The lines of the explanation; `fault` is the reference's."""
    explained = _BY_CAUSE[type(fault.cause)](fault, script)
    return explained + _whole_form(fault, script)


def others(fault, script):
    """What is said of the faults after the first one, and all faults as objects."""
    found = slips.all_faults(script.text)
    if not found or (found[0].line, found[0].column) != (fault.line, fault.column):
        found = [fault]
    explained, objects = [], [slips.as_object(fault, script, _message(explain(fault, script)))]
    for other in found[1:slips.MOST_FAULTS]:
        lines = explain(other, script)
        explained += lines
        objects.append(slips.as_object(other, script, _message(lines)))
    if len(found) > 1:
        explained.insert(0, 'The script has %s more, found by going on at the next line:' % (
            counted(len(found) - 1, 'fault') if len(found) <= slips.MOST_FAULTS else '%d or more faults' % (slips.MOST_FAULTS - 1)))
    return explained, objects


def _message(lines):
    """The sentences of an explanation without the lines that are shown, as one text."""
    said = [line for line in lines if not line.startswith((' ', 'line ', 'Syntax'))]
    mark = next((line.strip(' ^~') for line in lines if line.strip().startswith('^')), '')
    return ' '.join(([mark[:1].upper() + mark[1:] + '.'] if mark else []) + said)


def _show(fault, script, length, sentence):
    line = script.line(fault.line)
    return ['line %d, column %d:' % (fault.line, fault.column)] + ['  ' + shown for shown in marked(
        b'' if line is None else line, fault.column, length, sentence)]


def _whole_form(fault, script):
    """The form of the command at fault, or its forms."""
    first, version = script.command(fault.line).split(' ')[0], _version(script)
    if not isinstance(fault.cause, (grammar.Unfit, grammar.TooMany)) or first not in grammar.first_words(version):
        return []
    if isinstance(fault.cause, grammar.Unfit) and _is_first_word(fault.cause):
        return []
    known = grammar.form_of(first, version)
    return ['Syntax:' if len(known) == 1 else 'Syntax, one of:'] + ['  ' + form for form in known]


def _version(script):
    """Of the language, by the first line with words."""
    first = next((line for _, line, _ in lexer.lines_of(script.text) if lexer.words_of(line)), b'')
    return 2 if first.split()[1:2] == [b'2'] else 1


def _is_first_word(cause):
    """Whether `script` is wanted, as the first word of the script."""
    return cause.wanted is not None and cause.wanted.keywords == ('script',)


def _bad_byte(fault, script):
    byte = fault.cause.byte
    place = _place(script.text, fault)
    if byte == 13:
        said = 'a carriage return, which is allowed only directly before a line feed'
    elif byte > 126:
        said = 'byte %02X' % byte if byte == 127 else 'byte %02X, %s' % (byte, source.letter_said(script.text, place))
    else:
        said = 'byte %02X, a control character' % byte
    explained = _show(fault, script, 1, said)
    explained.append('A line may contain only printable ASCII, tabs, and a carriage return directly before its line feed; this '
                     'applies to comments too.')
    return explained


def _place(text, fault):
    """The place of the fault in the text."""
    start = 0
    for _ in range(fault.line - 1):
        start = text.index(b'\n', start) + 1
    return start + fault.column - 1


def _unfit(fault, script):
    cause = fault.cause
    word = None if cause.word is None else cause.word.decode('ascii')
    if word is None:
        explained = _show(fault, script, 1, 'a word is missing')
        line = (script.line(fault.line) or b'').decode('ascii', 'replace')
        return explained + ['Expected %s.' % cause.wanted.said] + _helped(foreign.commented(line[fault.column - 1:]))
    explained = _show(fault, script, len(word), 'unexpected `%s`' % _short(word))
    if cause.wanted is None:
        return explained + _unknown_command(word, cause.first_words, _version(script))
    if _is_first_word(cause) or cause.wanted.keywords in (('1',), ('1', '2')):
        return explained + _first_line(cause)
    find = hints.wrong_with_value if cause.wanted.shown == 'VALUE' else hints.wrong_with
    found = find(word, cause.wanted)
    if cause.wanted.shown == 'PROPERTY':
        helped = _helped(foreign.property_(word))
        return explained + ['There is no style property with this name.'] + helped + (
            [found] if found and not helped else [] if helped else ['The style properties are: %s.' % ', '.join(cause.wanted.keywords)])
    explained.append('Expected %s.%s' % (cause.wanted.said, ' ' + cause.wanted.shape if cause.wanted.shape else ''))
    helped = _helped(_foreign(word, cause.wanted, script.command(fault.line)))
    return explained + (helped or ([found] if found else []))


def _helped(sentence):
    return [] if sentence is None else [sentence]


def _foreign(word, wanted, command):
    """The sentence on a word from CSS or JavaScript, or None."""
    if wanted.shown == 'VALUE':
        return foreign.value(command.split(' ')[2], word) or foreign.operand(word)
    if 'wider' in wanted.keywords:
        return foreign.condition(word)
    if wanted.shown in ('LENGTH', 'SIGNED', 'PERCENT') and foreign.value('', word):
        return foreign.value('', word)
    return foreign.operand(word)


def _short(word):
    return word if len(word) <= 40 else word[:37] + '...'


def _unknown_command(word, known, version):
    if word == 'script':
        return ['`script` is allowed only on the first line with words.']
    explained = ["A line can't begin with `%s`." % _short(word)]
    if hints.of_version_2(word):
        return explained + [hints.of_version_2(word)]
    helped = _helped(foreign.first(word))
    near = hints.close(word, known)
    if helped and word.lower() not in known:
        return explained + helped
    if near:
        return explained + ['Did you mean:'] + ['  ' + form for name in near for form in grammar.form_of(name, version)]
    return explained + ['A line begins with one of: %s.' % ', '.join(known)]


def _first_line(cause):
    if _is_first_word(cause):
        return ['The first line with words must be `script 1` or `script 2`; comments and empty lines may come before it.']
    versions = ' or '.join(['`%d`' % version for version in available.VERSIONS])
    return ['Expected a version of the language: %s.' % versions]


def _too_many(fault, script):
    word = fault.cause.word.decode('ascii')
    explained = _show(fault, script, len(word), 'unexpected `%s`' % _short(word)) + [
        'The line is already complete before this word. A comment begins with `#`.']
    if foreign.extra(word) and not word.startswith(('//', '/*')):
        explained.append(foreign.extra(word))
    words = script.command(fault.line).split(' ')
    if words[0] == 'set' and words[2] in ('margin', 'padding', 'border'):
        explained.append('`%s` takes one value, for all four sides; `%s-top` and so on take one for a single side.' % (
            words[2], words[2]))
    return explained


def _misplaced(fault, script):
    line = script.line(fault.line)
    length = next(len(word) for column, word in lexer.words_of(line) if column == fault.column)
    explained = _show(fault, script, length, '') + [fault.cause.sentence]
    opened = re.search(r'on line ([0-9]+) has no `end` yet', fault.cause.sentence)
    if opened is None:
        return explained
    number = int(opened.group(1))
    return explained + ['It began there as `%s`, and needs an `end` before line %d.' % (script.command(number), fault.line)]


def _bad_query(fault, script):
    text = fault.cause.text
    bad = fault.cause.column
    if bad > len(text):
        explained = _show(fault, script, 1, 'the media query is incomplete')
    else:
        explained = _show(fault, script, 1, 'unexpected `%s`' % chr(text[bad - 1]))
    begun = text[:bad - 1].rstrip(b' \t')
    ending = media.shortest_ending(begun)
    if begun and not ending:
        explained.append("`%s` is valid, but can't be continued like this." % begun.decode('ascii'))
    elif begun:
        explained.append('Up to here this is the beginning of a media query, for example of `%s`.' % (
            begun + ending).decode('ascii'))
    if text[bad - 1:bad].isdigit() and text[bad - 2:bad - 1].isdigit():
        explained.append('A length is at most 1000000px, with up to 7 digits before the point and 2 after it.')
    near = _close_in_query(text, bad)
    if near:
        explained.append(hints.did_you_mean(near))
    return explained + _QUERY_FORMS


def _close_in_query(text, bad):
    """Words that are close to the one in which the bad byte stands."""
    for found in re.finditer(rb'[A-Za-z-]+', text):
        if found.start() < bad <= found.end() + 1:
            word = found.group().decode('ascii')
            return [] if word in _QUERY_WORDS else hints.close(word, _QUERY_WORDS)
    return []


def _left_open(fault, script):
    lines = fault.cause.lines
    explained = ['The script ends on line %d, but %s no `end` yet:' % (fault.line - 1, 'this has' if len(lines) == 1
                                                                       else 'these have')]
    explained += ['  line %d: %s' % (line, script.command(line)) for line in lines]
    return explained + ['Each `handler`, `each` and `when` needs its own `end`; an `end` closes the one that was opened last.']


def _no_first_line(fault, script):
    return ['The script has no line with words. The first one must be `script 1` or `script 2`.']


_BY_CAUSE = {
    lexer.BadByte: _bad_byte, grammar.Unfit: _unfit, grammar.TooMany: _too_many, grammar.Misplaced: _misplaced,
    grammar.BadQuery: _bad_query, grammar.LeftOpen: _left_open, grammar.NoFirstLine: _no_first_line,
}
