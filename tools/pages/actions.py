"""The file of actions: what is done to a page while it is recorded.

    scroll SELECTOR X Y    scrolls an element to a position in pixels; `window` is the page itself
    resize WIDTH HEIGHT    sets the size of the window
    click SELECTOR         clicks an element
    wait MILLISECONDS      waits

A line that begins with `#` and a space is a comment.
"""
import json
import re

NUMBER = r'(-?[0-9]{1,7}(?:\.[0-9]+)?)'
FORMS = (('scroll', re.compile(r'scroll (.+) %s %s\Z' % (NUMBER, NUMBER)), 'scroll SELECTOR X Y'),
         ('resize', re.compile(r'resize ([1-9][0-9]{0,4}) ([1-9][0-9]{0,4})\Z'), 'resize WIDTH HEIGHT, in whole pixels'),
         ('click', re.compile(r'click (.+)\Z'), 'click SELECTOR'),
         ('wait', re.compile(r'wait ([0-9]{1,6})\Z'), 'wait MILLISECONDS'))
FIND = '''(() => { const target = %s; let found = null;
  try { found = target === 'window' ? window : document.querySelector(target); } catch (e) { return 'is no selector'; }
  if (!found) return 'selects nothing in the page';
  pageRecorder.hub.act(%s);
  %s;
  return ''; })()'''


class BadAction(Exception):
    """A line isn't an action."""


def read(text):
    """The actions, each a list of words."""
    found = []
    for number, line in enumerate(text.splitlines(), 1):
        line = ' '.join(line.split())
        if line and line != '#' and not line.startswith('# '):
            found.append(action(number, line))
    return found


def action(number, line):
    for word, form, shown in FORMS:
        if line.split(' ')[0] == word:
            match = form.match(line)
            if not match:
                raise BadAction('line %d, `%s`, should be `%s`' % (number, line, shown))
            return [word] + list(match.groups())
    raise BadAction('line %d, `%s`, is none of scroll, resize, click and wait' % (number, line))


def expression(words):
    """What a page evaluates for a scroll or a click; its value is what is wrong, or nothing."""
    does = 'found.scrollTo(%s, %s)' % tuple(words[2:]) if words[0] == 'scroll' else "target === 'window' ? 0 : found.click()"
    return FIND % (json.dumps(words[1]), json.dumps(' '.join(words)), does)
