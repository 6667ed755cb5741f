"""`--at LINE`: the boxes of the tree as the command of a line begins for the first time."""
from reference.layout import BORDER, CONTENT
from reference.lengths import px
from reference.page import Page
from reference.world import Document

from .wording import size


class Reached(Exception):
    """The command of the line is about to begin."""


class PageUntil(Page):
    """A page whose run stops as the command of a line begins."""

    def __init__(self, script, line):
        Page.__init__(self, script, lambda text, line, about: None)
        self.stop = line

    def begin(self, command):
        if command.line == self.stop:
            raise Reached
        Page.begin(self, command)


class Box:
    """An element or a document in the list, with the words that are told of it."""

    def __init__(self, thing, level, box, said):
        self.thing, self.level, self.box, self.said = thing, level, box, said

    def as_object(self):
        kind = 'document' if isinstance(self.thing, Document) else self.thing.kind
        return {'name': self.thing.name, 'kind': kind, 'level': self.level, 'box': self.box, 'said': self.said}


def page_at(script, line):
    """The page as the command of this line begins, or None where it never begins."""
    page = PageUntil(script, line)
    try:
        page.run()
    except Reached:
        return page
    return None


def boxes(world):
    """The documents that are shown with all that stands in them, then the elements that stand nowhere."""
    found = []
    _add_document(world, world.top, 0, found)
    listed = {box.thing for box in found}
    loose = [thing for thing in world.names.values() if thing.what == 'element' and thing not in listed
             and thing.parent is None]
    for element in loose:
        if element.root_of is None or element.root_of not in listed:
            _add_element(world, element, 0, found)
    return found


def _add_document(world, document, level, found):
    layout = world.layout
    said = [] if document.frame is None else [document.state]
    said.append('viewport ' + size(layout.viewport(document)))
    said += _scrolled(layout.document_offset(document), layout.document_range(document))
    found.append(Box(document, level, None, ', '.join(said)))
    if document.root is not None:
        _add_element(world, document.root, level + 1, found)


def _add_element(world, root, level, found):
    waiting = [(root, level)]
    while waiting:
        element, level = waiting.pop()
        if isinstance(element, Document):
            _add_document(world, element, level, found)
            continue
        found.append(_element_box(world, element, level))
        inner = [element.framed] if element.framed is not None else []
        waiting.extend([(child, level + 1) for child in reversed(inner + element.children)])


def _element_box(world, element, level):
    layout = world.layout
    if not layout.has_box(element):
        return Box(element, level, None, 'no box: ' + layout.why_no_box(element))
    left, top = layout.place(element)
    width, height = layout.size(element, BORDER)
    said = []
    if layout.size(element, CONTENT) != (width, height):
        said.append('content box ' + size(layout.size(element, CONTENT)))
    if element.style['overflow'] != 'visible':
        said.append('overflow: %s' % element.style['overflow'])
    if layout.scrolls(element):
        said += _scrolled(layout.element_offset(element), layout.element_range(element))
    return Box(element, level, ' '.join([px(units) for units in (left, top, width, height)]), ', '.join(said))


def _scrolled(offset, range_):
    if range_ == (0, 0):
        return []
    return ['scrolled to %s (maximum %s)' % (' '.join([px(units) for units in offset]), ' '.join([px(units) for units in range_]))]


def table(found):
    """The list as lines, each level further in."""
    names = ['  ' * box.level + box.thing.name for box in found]
    kinds = ['document' if isinstance(box.thing, Document) else box.thing.kind for box in found]
    width = max([len(name) for name in names])
    box_width = max([len(box.box or '') for box in found])
    return [('%s  %s  %s  %s' % (name.ljust(width), kind.ljust(8), (box.box or '').ljust(box_width), box.said)).rstrip()
            for name, kind, box in zip(names, kinds, found)]
