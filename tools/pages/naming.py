"""Names in a script for elements and observers, as near to the page's own as the language allows."""
import re

LONGEST = 32
TAKEN = ('top', 'now')


class Names:
    """Names that are free: letters, digits, `-` and `_`, at most 32 bytes, each given once."""

    def __init__(self):
        self.given = set(TAKEN)

    def give(self, wanted, otherwise):
        name = re.sub(r'[^A-Za-z0-9_-]+', '-', wanted).strip('-_')
        if not re.match(r'[A-Za-z]', name):
            name = '%s-%s' % (otherwise, name) if name else otherwise
        name = name[:LONGEST].rstrip('-')
        free, number = name, 2
        while free in self.given:
            free = '%s-%d' % (name[:LONGEST - len(str(number)) - 1], number)
            number += 1
        self.given.add(free)
        return free


def of_element(name):
    """What is wanted for an element: `#card` is card, and `.list > li:nth-child(3)` is list-li-3."""
    return name.replace(':nth-child', '').replace(' > ', '-').replace('\\', '')


def place(at):
    """A place in the page's source, for a comment."""
    if not at:
        return 'an unknown place'
    first = at[0]
    return '%s:%s:%s' % (first['file'].rsplit('/', 1)[-1] or first['file'], first['line'], first['column'])


def ascii_text(text):
    """A comment's text: scripts are ASCII."""
    return ''.join(letter if 32 <= ord(letter) < 127 else '?' for letter in text)
