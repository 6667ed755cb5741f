"""Texts that are almost scripts: a script with no, one or several small faults."""
from .choices import QUERIES

_WORDS = [
    '', '0', '00', '01', '1', '-1', '1px', '-1px', '1.px', '.5px', '1.5px', '1.55px', '1.555px', '1.0px', '01px', '0000001px',
    '00000001px', '1000000px', '1000000.00px', '1000000.01px', '1000001px', '999999.99px', '1PX', '1p', 'px', '1 px', '+1px',
    '--1px', '1e3px', '1,5px', '10000%', '10000.00%', '10000.01%', '10001%', '-5%', '%', '1.%', '0.001%', 'auto', 'none',
    'block', 'static', 'relative', 'device', 'content', 'border', 'scroll', 'threshold', 'margin', 'root', '-', '$target',
    '$targets', '$', '@top', '@', '@@top', '@$target', '@-', 'a-b_c9', '9a', '_a', '-a', 'a' * 32, 'a' * 33, 'a.b', 'top',
    'Top', 'TOP', 'end', 'each', 'when', 'not', 'seen', 'handler', 'tick', 'script', '#', '#x', 'a#b', '1000000000000',
    '1000000000001', '0.5', '0.12345', '1.0000', '-0', '-0.5', '0.', '123456789', '1234567890', 'width', 'height',
    'min-width', 'position', 'margin-top', 'margin-', 'Width', 'resize', 'change', 'error', 'resizes', '150%', 'ratio',
]
_QUERIES = [
    'all and', 'all and(width:1px)', 'not', 'not(width: 1px)', 'not not all', 'only (width:1px)', 'only all',
    '(width:1px) and (height:1px) or (width:2px)', '(width 1px)', '(width: 1px', 'width: 1px', '(width: 1 px)',
    '(width:1px)and (height:1px)', '(Width: 1px)', 'ALL', '(min-width: 1000001px)', '(min-width: 1000000px)',
    '(min-width: 1000000.01px)', '(min-width: 00000001px)', '(min-width: 1.234px)', '(min-width: -1px)', '(min-width: 50%)',
    '(orientation: landscapes)', '(orientation: 1px)', '(orientation:portrait )', 'all,', ',all', 'all , , all', 'all all',
    'screen or (width: 1px)', 'screen and (width:1px) or (height:1px)', 'not (width:1px) and (height:1px)',
    '(width:1px) or (height:1px) or (width: 3px)', '( width\t:\t1px )', 'all\tand\t(width:1px)',
    'all   and   (width:1px),print', '(min-orientation: portrait)', '(width: .5px)', '(width:1px),', 'printer', 'pr',
    '(max-width: 2000000px)', '(max-width:1000000.0px)', '(device-width: 1px)', '()', '(',
]
_BYTES = [b'\x00', b'\x80', b'\xff', b'\r', b'\x7f', b'\x0b', b'\x1f', b'\t', b'~', b'\x1b', b'\xc3\xa9', b'\xef\xbb\xbf']
_STRUCTURE = [
    b'end', b'handler zz', b'handler h0', b'handler', b'handler 1', b'handler zz zz', b'each', b'each 1', b'when',
    b'when not', b'when not not seen', b'when seen seen', b'tick 1', b'tick', b'tick 01', b'tick 1000000000001', b'script 1',
    b'script', b'end end', b'when wider a', b'when attached $target 1']
_FIRST_LINES = [
    b'script 3', b'script', b'script 1 1', b'scrip 1', b'script 01', b'script 2', b'script 1', b'  script   1  ', b'',
    b'# script 1', b'Script 1', b'1 script', b'script 1 # one']
_LINES = [
    b'io x1 top - root - margin', b'io x1 top - root - threshold 0', b'io x1 top - root margin threshold',
    b'io x1 top - root - margin threshold threshold', b'io x1 top - root - margin scroll 1px threshold',
    b'io x1 top - root - margin scroll scroll threshold', b'io x1 top - root - margin 1px scroll threshold 0',
    b'io x1 top - root - margin threshold 0.12345', b'io x1 top - root - margin margin threshold 0',
    b'io x1 top - root - margin root threshold 1 2px', b'io x1 top h0 root $target margin threshold',
    b'io x1 top 5 root - margin threshold', b'io x1 top - root @top margin threshold',
    b'io x1 top - roots - margin threshold', b'listen $target scroll h0', b'listen @top scroll -', b'listen -top scroll h0',
    b'listen top scrolls h0', b'listen @ scroll h0', b'ro x1 top', b'ro x1 top $target', b'ro-observe x1 r device',
    b'ro-observe x1 r both', b'grow r depth 1px', b'grow r width 5%', b'set r', b'set r width', b'set r width 1px 2px',
    b'set r colour', b'set r max-width auto', b'set r width none', b'set r margin auto', b'set r margin -1px',
    b'set r border 1%', b'set r border-width 1px', b'set r overflow hide', b'set r position fixed', b'set r top -10.5%',
    b'set r top --1px', b'set r left auto', b'scroll top 1px', b'scroll top 5% 0px', b'scroll-by $target -1px -0.5px',
    b'timer top k 5', b'timer top k 5 -', b'timer top k x h0', b'say', b'say 5', b'say $target', b'read @top',
    b'ratio 150%', b'ratio -1%', b'ratio 1px', b'viewport 1px', b'viewport -1px 1px', b'image x2 top 1px', b'frame x2 top',
    b'before r r', b'remove', b'append top', b'media m9 top', b'media m9', b'media 9 top all', b'media m9 top # all']


def _in_words(chance, lines, at):
    """One word removed, doubled, replaced or inserted."""
    words = lines[at].split(b' ')
    place = chance.randrange(len(words))
    how = chance.randrange(5)
    if how == 0:
        del words[place]
    elif how == 1:
        words.insert(place, chance.choice(words))
    elif how == 2:
        words.insert(place, chance.choice(_WORDS).encode())
    else:
        words[place] = chance.choice(_WORDS).encode()
    lines[at] = b' '.join(words)


def _in_bytes(chance, lines, at):
    """One byte removed, replaced or inserted."""
    line = lines[at]
    place = chance.randrange(len(line) + 1)
    how = chance.randrange(4)
    if how == 0:
        put = chance.choice(_BYTES)
    elif how == 1:
        put = bytes([chance.choice(b'0159.-%px$@aZ_#~')])
    elif how == 2:
        put = bytes([chance.randrange(32, 127)])
    else:
        put = b''
    lines[at] = line[:place] + put + line[place + chance.randrange(2):]


def _in_lines(chance, lines, at):
    """One line removed or doubled, or a structural one inserted."""
    how = chance.randrange(4)
    if how == 0:
        del lines[at]
    elif how == 1:
        lines.insert(at, lines[at])
    else:
        lines.insert(at, chance.choice(_STRUCTURE))


def _in_a_query(chance, lines, at):
    if chance.randrange(2):
        return lines.insert(at, b'media mm top ' + chance.choice(_QUERIES).encode())
    query = bytearray(chance.choice(QUERIES + _QUERIES).encode())
    place = chance.randrange(len(query))
    query[place:place + chance.randrange(2)] = chance.choice([b'', bytes([chance.choice(b'aworn(): ,19.px-\t')]), b'0px'])
    lines.insert(at, b'media mm top ' + bytes(query))


def _in_the_first_line(chance, lines, at):
    lines[0] = chance.choice(_FIRST_LINES)


def _in_length(chance, lines, at):
    """A line with about as many bytes as a line may have."""
    fill = chance.choice([b' ', b'\t', b'#', b'x'])
    line = lines[at] + b' '
    line += fill * max(0, chance.choice([4090, 4095, 4096, 4097, 4100]) - len(line))
    if chance.random() < 0.3:
        place = chance.randrange(4085, 4100)
        line = line[:place] + chance.choice(_BYTES) + line[place:]
    lines[at] = line


def _in_returns(chance, lines, at):
    lines[at] += chance.choice([b'\r', b'\r\r', b' \r', b'\rx', b' #\r'])


def _in_nesting(chance, lines, at):
    depth = chance.choice([15, 16, 17, 18])
    body = [chance.choice([b'when attached top', b'each'])] * depth
    if chance.random() < 0.3:
        body[-1] = chance.choice([b'when attached', b'each x', b'when not not seen'])
    lines[at + 1:at + 1] = body + [b'end'] * depth


def _in_space(chance, lines, at):
    """White space and comments, which aren't faults."""
    space = chance.choice([b'  ', b'\t', b' \t '])
    lines[at] = chance.choice([b'\t', b'  ', b'']) + lines[at].replace(b' ', space) + chance.choice(
        [b'', b' ', b'\t', b' # note', b' #', b'#'])


def _in_a_form(chance, lines, at):
    lines.insert(at, chance.choice(_LINES))


_FAULTS = [_in_words] * 7 + [_in_bytes] * 8 + [_in_lines] * 4 + [_in_a_query] * 2 + [_in_a_form] * 2 + [
    _in_the_first_line, _in_length, _in_returns, _in_nesting, _in_space]


def nearly_a_script(chance, lines):
    """The bytes of a script's lines with or without faults, maybe truncated or with other line endings."""
    lines = [line.encode() for line in lines]
    if chance.random() < 0.5:
        lines = lines[:chance.randrange(1, len(lines) + 1)]
    for _ in range(chance.choice([0, 1, 1, 1, 1, 2, 3])):
        chance.choice(_FAULTS)(chance, lines, chance.randrange(len(lines)))
        lines = lines or [b'']
    text = b''.join([line + b'\n' for line in lines])
    how = chance.random()
    if how < 0.1:
        return text[:-1]
    if how < 0.2:
        return text[:chance.randrange(len(text) + 1)]
    if how < 0.25:
        return text.replace(b'\n', b'\r\n')
    if how < 0.28:
        return text.replace(b'\n', b'\r\n')[:-1]
    if how < 0.31:
        place = chance.randrange(len(text) + 1)
        return text[:place] + b'\n' * chance.randrange(1, 4) + text[place:]
    return text
