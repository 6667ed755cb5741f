"""Words from CSS, HTML and JavaScript that people try in a script, each with the sentence that helps.

Gives to others: `first(word)`, `property_(word)`, `value(property, word)`, `condition(word)`, `operand(word)`: a sentence or None.
"""
import re

_COMMENT = 'A comment begins with `#`.'
_PAIR = 'two `when`s in a row both run if the first one changes what the second one asks'

_FIRST = {
    'if': 'A condition is `when CONDITION` .. `end`.',
    'else': "There is no `else`: write a second `when not CONDITION` .. `end`. Mind that %s." % _PAIR,
    'elif': "There is no `else`: write a second `when` .. `end`. Mind that %s." % _PAIR,
    'unless': 'A negated condition is `when not CONDITION` .. `end`.',
    'for': 'The only loop is `each` .. `end`, over the entries of an observer\'s callback.',
    'foreach': 'The only loop is `each` .. `end`, over the entries of an observer\'s callback.',
    'while': 'The only loop is `each` .. `end`, over the entries of an observer\'s callback.',
    'function': 'A callback is `handler NAME` .. `end`.',
    'const': 'There are no variables: things are named by the command that creates them, as in `block card top`.',
    'let': 'There are no variables: things are named by the command that creates them, as in `block card top`.',
    'var': 'There are no variables: things are named by the command that creates them, as in `block card top`.',
    'return': 'A handler runs to its `end`; what depends on a condition stands in `when` .. `end`.',
    'div': 'An element with a box is `block NAME top`, and then `append PARENT NAME`.',
    'span': 'There is no inline layout: an element is `block NAME top`, `image` or `frame`.',
    'img': 'An image is `image NAME top WIDTH HEIGHT`, with its natural size.',
    'iframe': 'A frame is `frame NAME top NAME`, with a name for its document.',
    'createelement': 'An element is `block NAME top`, and then `append PARENT NAME`.',
    'appendchild': 'It is `append PARENT NODE`.',
    'insertbefore': 'It is `before PARENT NODE SIBLING`.',
    'removechild': 'It is `remove NODE`.',
    'observe': 'It is `ro-observe NAME NODE content` for a resize observer, or `io-observe NAME NODE` for an intersection observer.',
    'unobserve': 'It is `ro-unobserve NAME NODE` or `io-unobserve NAME NODE`.',
    'disconnect': 'It is `ro-disconnect NAME` or `io-disconnect NAME`.',
    'takerecords': 'It is `io-take NAME`.', 'resizeobserver': 'A resize observer is `ro NAME top HANDLER`.',
    'intersectionobserver': 'An intersection observer is `io NAME top HANDLER root - margin threshold 0`.',
    'addeventlistener': 'It is `listen TARGET EVENT HANDLER`.', 'removeeventlistener': 'It is `unlisten TARGET EVENT HANDLER`.',
    'on': 'It is `listen TARGET EVENT HANDLER`.',
    'settimeout': 'A task is `post top HANDLER`; a timer is `timer top KEY MILLISECONDS HANDLER`.',
    'setinterval': 'There is no interval: the handler of a `timer` sets the next one.',
    'requestanimationframe': 'It is `raf top KEY HANDLER`.', 'cancelanimationframe': 'It is `cancel-raf top KEY`.',
    'matchmedia': 'It is `media NAME top QUERY`, and `listen NAME change HANDLER`.', 'scrollto': 'It is `scroll NODE LEFT TOP`.',
    'scrollby': 'It is `scroll-by NODE LEFT TOP`.',
    'scrollintoview': 'There is no such command: `scroll NODE LEFT TOP` scrolls to a position.',
    'resize': 'The viewport is resized by `viewport WIDTH HEIGHT`, an element by `set NODE width LENGTH`.',
    'console': 'A word is written by `say WORD`, a box by `read NODE`.', 'print': 'A word is written by `say WORD`, a box by `read NODE`.',
    'log': 'A word is written by `say WORD`, a box by `read NODE`.',
    'wait': 'Time passes by `tick MILLISECONDS`, which also updates the page.',
    'sleep': 'Time passes by `tick MILLISECONDS`, which also updates the page.',
    'style': 'A style is `set NODE PROPERTY VALUE`.', 'css': 'A style is `set NODE PROPERTY VALUE`.', 'add': 'It is `append PARENT NODE`.',
    'delete': 'It is `remove NODE`.', 'width': 'A style is `set NODE width LENGTH`.', 'height': 'A style is `set NODE height LENGTH`.',
    'async': 'There are no promises: a task is `post top HANDLER`.', 'await': 'There are no promises: a task is `post top HANDLER`.',
    'queuemicrotask': 'There are no microtasks: a task is `post top HANDLER`.', '}': 'A handler or block is closed by `end`.',
    '{': 'A handler or block begins with its own line and is closed by `end`.', '});': 'A handler or block is closed by `end`.',
    'and': "There is no `and`: put one `when` in another.", 'or': "There is no `or`: write two `when`s with the same commands.",
}
_PROPERTIES = {
    'visibility': "Painting isn't part of the model: `display none` takes the box away, `overflow hidden` clips what is in one.",
    'opacity': "Painting isn't part of the model, and `opacity` changes no box.",
    'float': 'There are no floats: blocks are stacked vertically.', 'clear': 'There are no floats: blocks are stacked vertically.',
    'transform': "Transforms aren't part of the model; in version 2, `position relative` with `top` and `left` moves a box.",
    'gap': 'There is no flex or grid layout: use `margin-bottom` on the blocks.',
    'aspect-ratio': 'There are no aspect ratios: set `height`, too.', 'z-index': "Painting order isn't part of the model.",
    'inset': 'Set `top`, `right`, `bottom` and `left`, in version 2.',
    'border-width': 'It is `border`, for all four sides, or `border-top` and so on.',
    'border-radius': "Painting isn't part of the model.", 'overflow-x': 'There is one `overflow` for both directions.',
    'overflow-y': 'There is one `overflow` for both directions.', 'inline-size': 'It is `width`.', 'block-size': 'It is `height`.',
    'content-visibility': "`content-visibility` isn't part of the model.", 'contain': "Containment isn't part of the model.",
    'font': 'There is no text: give a block the size that its text would have.',
    'font-size': 'There is no text: give a block the size that its text would have.',
    'line-height': 'There is no text: give a block the size that its text would have.',
    'transition': "Transitions aren't part of the model: `timer` and `raf` change sizes step by step.",
    'animation': "Animations aren't part of the model: `timer` and `raf` change sizes step by step.",
    'scroll-behavior': 'Scrolling is always immediate.', 'scrollbar-width': 'Scrollbars take up no space.',
    'writing-mode': 'There is one writing mode: lines from left to right, blocks from top to bottom.',
}
_OF_FLEX = 'There is no flex, grid, inline or table layout: a block is as wide as its parent leaves, and blocks are stacked vertically.'
_VALUES = {
    'flex': _OF_FLEX, 'grid': _OF_FLEX, 'inline': _OF_FLEX, 'inline-block': _OF_FLEX, 'inline-flex': _OF_FLEX, 'table': _OF_FLEX,
    'contents': _OF_FLEX, 'flow-root': 'Each `block` contains its margins, as with `flow-root`.',
    'sticky': "Sticky positioning isn't part of the model; `fixed` and `absolute` are, in version 2.",
    'fit-content': 'A size is `auto`, a length or a percentage: there is no text that it could fit.',
    'min-content': 'A size is `auto`, a length or a percentage: there is no text that it could fit.',
    'max-content': 'A size is `auto`, a length or a percentage: there is no text that it could fit.',
    'inherit': 'Nothing is inherited: set the value on each element.', 'initial': "Write the property's initial value (docs/SCRIPT.md).",
    'unset': "Write the property's initial value (docs/SCRIPT.md).", 'revert': "Write the property's initial value (docs/SCRIPT.md).",
    'overlay': 'It is `auto`: scrollbars take up no space.',
}
_BOXES = {'border-box': 'It is `border`.', 'content-box': 'It is `content`.', 'device-pixel-content-box': 'It is `device`, in version 2.'}
_CONDITIONS = {
    'narrower': 'It is `not wider NODE LENGTH`.', 'shorter': 'It is `not taller NODE LENGTH`.', 'visible': 'It is `seen`, in an `each`.',
    'hidden': 'It is `not seen`, in an `each`.',
    'intersecting': 'It is `seen`, in an `each`.',
    'isintersecting': 'It is `seen`, in an `each`.',
    'width': 'It is `wider NODE LENGTH`, or `not wider NODE LENGTH`.', 'height': 'It is `taller NODE LENGTH`, or `not taller NODE LENGTH`.',
    'connected': 'It is `attached NODE`.', 'isconnected': 'It is `attached NODE`.', '!': 'It is `not`.',
}
_EVENTS = ('click', 'load', 'domcontentloaded', 'input', 'focus', 'scrollend', 'wheel', 'mousemove', 'pointermove', 'keydown', 'message')


def first(word):
    """On the first word of a line."""
    if word.startswith(('//', '/*', '<!--', '--')):
        return _COMMENT
    if word.startswith('#'):
        return _COMMENT
    if word.startswith('<'):
        return _FIRST.get(re.sub(r'[^a-z]', '', word.lower()), _FIRST['div'])
    parts = [part for part in re.split(r'[.(;:{]+', word.lower()) if part]
    for part in parts[::-1] + [word.lower()]:
        if part in _FIRST:
            return _FIRST[part]
    if '.style' in word or '=' in word:
        return 'A style is `set NODE PROPERTY VALUE`, with spaces between.'
    return None


def property_(word):
    camel = re.sub(r'([A-Z])', lambda letter: '-' + letter.group(1).lower(), word)
    if camel != word:
        return 'It is `%s`, as in CSS.' % camel if property_(camel) is None else property_(camel)
    word = word.rstrip(':')
    for known, sentence in _PROPERTIES.items():
        if word == known or word.startswith(known + '-'):
            return sentence
    if word.startswith(('flex', 'grid', 'align-', 'justify-', 'order', 'column')):
        return _OF_FLEX
    if word.startswith(('color', 'background', 'box-shadow', 'outline', 'clip', 'filter', 'cursor', 'text-', 'white-space', 'mask')):
        return "Painting isn't part of the model: only what changes a box is."
    found = re.fullmatch(r'(margin|padding|border)-(inline|block)(-start|-end)?', word)
    if found:
        sides = {'inline': ('left', 'right'), 'block': ('top', 'bottom')}[found.group(2)]
        return 'It is %s.' % ' and '.join(['`%s-%s`' % (found.group(1), side) for side in sides])
    return None


def value(property_name, word):
    """On the value of a property."""
    low = word.lower()
    if re.match(r'(calc|min|max|clamp|var|env)\(', low):
        return 'There are no functions: write the length that comes out, or a percentage.'
    if low == 'auto' and property_name.startswith('margin'):
        return 'There are no `auto` margins: write the length that comes out.'
    unit = re.fullmatch(r'-?[0-9.]+(em|rem|ch|vw|vh|vmin|vmax|dvh|svh|lvh|pt|cm|mm|in|fr)', low)
    if unit:
        return 'The only unit of length is `px`; write the length that comes out%s.' % (
            ', or a percentage' if unit.group(1) in ('vw', 'vh', 'fr') else '')
    return _VALUES.get(low)


def condition(word):
    """On a word in place of a condition."""
    return _CONDITIONS.get(word.lower().strip('!()')) or (_CONDITIONS['!'] if word.startswith('!') else None)


def extra(word):
    """On a word after the end of a line."""
    if word.startswith(('//', '/*')):
        return _COMMENT
    if word in ('and', '&&'):
        return 'There is no `and`: put a second `when` .. `end` inside this one.'
    if word in ('or', '||'):
        return 'There is no `or`: write a second `when` .. `end` with the same commands.'
    if word == '{':
        return 'A handler or block begins without `{` and is closed by `end`.'
    if word in ('=', '==', '===', '>', '<', '>=', '<='):
        return ('There are no operators: a condition is `wider NODE LENGTH`, `taller NODE LENGTH`, `matches NAME`, `attached NODE` or '
                '`seen`.')
    if word == '!important':
        return 'There are no selectors, so nothing is more important than the last `set`.'
    return 'A line has no `;`.' if word == ';' else None


def operand(word):
    """On a word in place of a name, a box, an event or a length."""
    low = word.lower()
    if low in _BOXES:
        return _BOXES[low]
    if low in _EVENTS:
        return 'Nobody uses the page, and nothing is loaded over a network: such events never come.'
    if word.endswith(';'):
        return 'A line has no `;`.'
    if word.endswith(','):
        return 'Words are separated by spaces alone, without commas.'
    if word.startswith('.') and len(word) > 1 and word[1].isalpha():
        return 'There are no selectors: a thing is named as it was created, without `.`.'
    if len(word) > 1 and word[0] in '"\'`':
        return 'A word has no quotes.'
    if word.startswith('['):
        return 'There are no brackets: several of them stand one after another, separated by spaces.'
    return 'There are no functions and no parentheses here.' if '(' in word else None


def commented(rest):
    """On what follows the end of a line's words: `#card`, a selector, would begin a comment."""
    found = re.match(r'\s*#([A-Za-z][A-Za-z0-9_-]*)', rest)
    if not found:
        return None
    return '`#%s` begins a comment: a thing is named as it was created, without `#`: `%s`.' % (found.group(1), found.group(1))
