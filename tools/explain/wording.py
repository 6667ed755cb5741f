"""Numbers, sizes and rectangles in words."""
from reference.lengths import px


def number(count):
    return '{:,}'.format(count)


def counted(count, one, many=None):
    return '%s %s' % (number(count), one if count == 1 else many or one + 's')


def size(units):
    return '%s by %s' % (px(units[0]), px(units[1]))


def rectangle(edges):
    left, top, right, bottom = edges
    return '%s %s %s %s' % (px(left), px(top), px(right - left), px(bottom - top))


def listed(words, joint='and'):
    """`a`, `b` and `c`."""
    words = list(words)
    if len(words) < 2:
        return ''.join(words)
    return '%s %s %s' % (', '.join(words[:-1]), joint, words[-1])


def quoted(words, most=8):
    """Names in backticks, the first of them."""
    words = ['`%s`' % word for word in words]
    return ', '.join(words[:most]) + (' and %d more' % (len(words) - most) if len(words) > most else '')


def ratio(part, whole):
    """A ratio as a decimal of at most four digits; it says where it is cut."""
    if part * 10000 % whole == 0:
        text = ('%d.%04d' % divmod(part * 10000 // whole, 10000)).rstrip('0').rstrip('.')
        return text
    return 'about %d.%04d' % divmod(part * 10000 // whole, 10000)


def thresholds(numbers):
    return ', '.join([ratio(threshold, 10000) for threshold in numbers])
