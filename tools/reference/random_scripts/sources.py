"""Sources that contain more than one script: streams of pages, and scripts with recorded traces."""

_NUMBERS = [b'0', b'1', b'01', b'-0', b'0.5', b'0.015625', b'0.01', b'0.50', b'yes', b'no', b'top', b'true',
            b'340282366920938463463374607431768211456', b'18446744073709551616', b'4294967296', b'1125899906842624',
            b'17592186044416', b'17592186044417']


def stream(chance, scripts):
    """These scripts as pages, interleaved in runs of lines; two may have the same name."""
    pages = [('p%d' % number if chance.random() < 0.97 else 'p0', script.split(b'\n')[:-1])
             for number, script in enumerate(scripts)]
    lines = [chance.choice([b'', b'# no page', b'tick 0', b'page 5', b' page a'])] if chance.random() < 0.03 else []
    left = [page for page in pages if page[1]]
    while left:
        name, waiting = chance.choice(left)
        lines.append(b'page ' + name.encode() + (b'\r' if chance.random() < 0.05 else b''))
        count = chance.choice([1, 2, 3, 5, 10, 20])
        lines.extend(waiting[:count])
        del waiting[:count]
        if chance.random() < 0.002:
            lines.append(chance.choice([b'page  a', b'page', b'page 9', b'page a b', b'Page a']))
        left = [page for page in left if page[1]]
    return b'\n'.join(lines) + (b'\n' if chance.random() < 0.95 else b'')


def _changed_line(chance, lines):
    at = chance.randrange(len(lines))
    line, how = lines[at], chance.randrange(4)
    if how == 0:
        place = chance.randrange(len(line))
        line = line[:place] + bytes([chance.choice(b'0123456789ab .-\n')]) + line[place + 1:]
    elif how == 1:
        line = line.replace(b' ', b'  ', 1)
    else:
        words = line[:-1].split(b' ')
        words[chance.randrange(len(words))] = chance.choice(_NUMBERS)
        line = b' '.join(words) + b'\n'
    lines[at] = line


def _changed_order(chance, lines):
    """One line removed or doubled, or two adjacent lines swapped."""
    at, how = chance.randrange(len(lines)), chance.randrange(3)
    if how == 0:
        del lines[at]
    elif how == 1:
        lines.insert(at, lines[at])
    else:
        lines[at:at + 2] = reversed(lines[at:at + 2])


def _changed_bytes(chance, text):
    """One byte changed, removed or added, or the end cut off."""
    at, how, byte = chance.randrange(len(text)), chance.randrange(4), bytes([chance.randrange(256)])
    return text[:at] + (byte + text[at + 1:], text[at + 1:], byte + text[at:], b'')[how]


def recorded(chance, script, trace):
    """A script, a line `trace` and its trace, usually with a small change; `trace` is a list of lines without line feeds."""
    lines = [line.encode() + b'\n' for line in trace]
    how = chance.randrange(10)
    if how == 1 and lines:
        del lines[chance.randrange(len(lines)):]
    elif how == 2:
        lines.append(chance.choice([b'tick 16\n', b'hello\n', b'\n', b'say a', b'round top 1\n']))
    elif how in (3, 4) and lines:
        _changed_line(chance, lines)
    elif how == 5 and lines:
        lines[-1] = lines[-1][:-1]
    elif how == 6 and lines:
        _changed_order(chance, lines)
    elif how in (7, 8) and lines:
        lines = [_changed_bytes(chance, b''.join(lines))]
    if chance.random() < 0.05:
        return script
    separator = chance.choice([b'trace\n', b'trace\n', b'trace\r\n', b'trace\n', b'trace \n', b'trace'])
    if script and not script.endswith(b'\n'):
        separator = b'\n' + separator
    return script + separator + b''.join(lines)
