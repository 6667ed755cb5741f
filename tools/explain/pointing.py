"""A line of the script with a mark below a word."""
from reference.lexer import words_of

WIDTH = 100


def marked(line, column, length, sentence=''):
    """Two lines: the bytes of a script's line, cut to what fits, and a mark from this column on with a sentence behind it."""
    line = line.rstrip(b'\r')
    width = max(len(line), column - 1)
    start = max(0, min(column - 1 - WIDTH // 2, width - WIDTH))
    shown = ''.join([chr(byte) if 32 <= byte <= 126 else ' ' if byte == 9 else '?' for byte in line[start:start + WIDTH]])
    shown = shown.ljust(min(column - 1 - start, WIDTH))
    before = '...' if start else ''
    behind = '...' if start + WIDTH < len(line) else ''
    space = ' ' * (len(before) + column - 1 - start)
    mark = '^' + '~' * (min(length, WIDTH // 2) - 1)
    return [(before + shown + behind).rstrip(), (space + mark + ' ' + sentence).rstrip()]


def marked_word(script, number, word, sentence=''):
    """The line with a mark below its word of this number, or behind its last one."""
    line = script.line(number) or b''
    words = words_of(line)
    if word < len(words):
        column, text = words[word]
        return marked(line, column, len(text), sentence)
    column, text = words[-1]
    return marked(line, column + len(text), 1, sentence)
