"""The boxes of a page, and the elements at a point (`--inspect`, `--hit`)."""
from . import lengths
from .intersection import Clip, clips_between, common_part, seen_from
from .layout import BORDER
from .world import ACTIVE, depth, preorder


def _clips(world, element):
    """The element's border box and everything that clips it, in the coordinates of `top`."""
    layout = world.layout
    return clips_between(layout, element, None) + [Clip(world.top, 'viewport', layout.viewport_rectangle(world.top))]


def boxes(world):
    """A line for each element with a box, by document in the order of an update: its border box and the visible part of it."""
    return [_box_line(world, element) for document in world.active_documents() if document.root is not None
            for element in preorder(document.root) if world.layout.has_box(element)]


def _box_line(world, element):
    layout = world.layout
    left, top = layout.place(element)
    width, height = layout.size(element, BORDER)
    line = 'box %s %d %s ' % (element.name, depth(element),
                              lengths.rectangle_text((left, top, left + width, top + height)))
    seen = common_part([clip.rectangle for clip in _clips(world, element)])
    if seen is None:
        return line + 'hidden'
    return line + 'seen ' + lengths.rectangle_text(seen_from(layout.origin(element.document), seen))


def hits(world, left, top):
    """The elements at a point of the viewport of `top`, topmost first, including those of documents in frames."""
    found = ['hit ' + element.name for element in _painted(world)
             if world.layout.has_box(element)
             and all(_holds(clip.rectangle, left, top) for clip in _clips(world, element))]
    return found[::-1] or ['miss']


def _painted(world):
    """All elements of Active documents in painting order."""
    waiting = [world.top.root] if world.top.root is not None else []
    while waiting:
        element = waiting.pop()
        yield element
        inner = list(element.children)
        if element.framed is not None and element.framed.state is ACTIVE and element.framed.root is not None:
            inner.append(element.framed.root)
        waiting.extend(reversed(inner))


def _holds(rectangle, left, top):
    return rectangle[0] <= left < rectangle[2] and rectangle[1] <= top < rectangle[3]
