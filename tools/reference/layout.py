"""Boxes, widths, heights, scrolling and positions (the rules 'Boxes' to 'Scrolling' of docs/RULES.md; CSS 2.2, 9 and 10; CSS
Overflow 3, 2.2 and 3; CSSOM View, 4 to 6). Only version 2 has `position`, insets and the box `device`.

A Layout belongs to one state of the world; its results are cached until the world changes. Rectangles are
(left, top, right, bottom).
"""
import sys

from .lengths import AUTO, NONE, capped, clamped, cut, percentage, used
from .styles import SIDES

sys.setrecursionlimit(1000000)

PAGE, SCREEN = 'page', 'screen'
CONTENT, BORDER, DEVICE = 'content', 'border', 'device'
FRAME_WIDTH, FRAME_HEIGHT = 300 * 64, 150 * 64
ACTIVE = 'Active'


class Layout:
    def __init__(self, world):
        self.world = world
        self._boxes, self._containing, self._edges = {}, {}, {}
        self._widths, self._heights, self._above = {}, {}, {}
        self._flat, self._reaches = {}, {}
        self.forget_places()

    def forget_places(self):
        self._shifts, self._origins = {}, {}

    # --- boxes --------------------------------------------------------------------------------------------------------------

    def has_box(self, node):
        known = self._boxes.get(node)
        if known is None:
            known = self._boxes[node] = self._find_box(node)
        return known

    def _find_box(self, node):
        if node.style['display'] == 'none':
            return False
        if node.parent is not None:
            return node.parent.kind == 'block' and self.has_box(node.parent)
        document = node.root_of
        return (document is not None and document.state == ACTIVE
                and (document.frame is None or self.has_box(document.frame)))

    def why_no_box(self, node):
        """Why an element has no box, as a part of a sentence: the first reason on the way up from the element."""
        while not self.has_box(node):
            if node.style['display'] == 'none':
                return '`%s` has `display: none`' % node.name
            if node.parent is not None and node.parent.kind != 'block':
                return "`%s` is in `%s`, which isn't a block" % (node.name, node.parent.name)
            if node.parent is None and node.root_of is None:
                return "`%s` isn't in a document" % node.name
            if node.parent is None and node.root_of.state != ACTIVE:
                return 'the document `%s` is %s' % (node.root_of.name, node.root_of.state)
            node = node.parent or node.root_of.frame
        raise ValueError('the element has a box')

    def viewport(self, document):
        return self.world.viewport_size if document.frame is None else self.size(document.frame, CONTENT)

    # --- containing blocks --------------------------------------------------------------------------------------------------

    @staticmethod
    def position(node):
        return 'static' if node.root_of is not None else node.style['position']

    def in_flow(self, node):
        return self.position(node) in ('static', 'relative')

    def holder(self, node):
        """The element whose box is its containing block, or PAGE or SCREEN."""
        if node.root_of is not None:
            return PAGE
        position = node.style['position']
        if position == 'fixed':
            return SCREEN
        if position != 'absolute':
            return node.parent
        above = node.parent
        while above is not None:
            if self.position(above) != 'static':
                return above
            above = above.parent
        return PAGE

    def containing(self, node):
        """(containing width, containing height if it is definite, otherwise None)."""
        known = self._containing.get(node)
        if known is None:
            known = self._containing[node] = self._find_containing(node)
        return known

    def _find_containing(self, node):
        holder = self.holder(node)
        if holder is PAGE or holder is SCREEN:
            return self.viewport(node.document)
        if not self.in_flow(node):
            width, height = self.padding_size(holder)
            return (capped(width), capped(height))
        parent = node.parent
        return (self.width(parent), self.height(parent) if self._is_definite(parent) else None)

    def _is_definite(self, node):
        """Whether its height is definite: not dependent on its content."""
        given = node.style['height']
        if given is AUTO:
            return not self.in_flow(node) and node.style['top'] is not AUTO and node.style['bottom'] is not AUTO
        return given[0] == 'px' or self.containing(node)[1] is not None

    def edges(self, node):
        """The used margins, borders and paddings, each as (top, right, bottom, left)."""
        known = self._edges.get(node)
        if known is None:
            width, style = self.containing(node)[0], node.style
            known = self._edges[node] = tuple([
                tuple([used(style['%s-%s' % (edge, side)], width) for side in SIDES])
                for edge in ('margin', 'border', 'padding')])
        return known

    def inset(self, node, side):
        length = node.style[side]
        if length is AUTO:
            return None
        if length[0] == 'px':
            return length[1]
        basis = self.containing(node)[0 if side in ('left', 'right') else 1]
        return None if basis is None else clamped(percentage(length[1], basis))

    # --- used widths and heights of content boxes ---------------------------------------------------------------------------

    def width(self, node):
        known = self._widths.get(node)
        if known is None:
            known = self._widths[node] = self._find_width(node)
        return known

    def height(self, node):
        known = self._heights.get(node)
        if known is None:
            known = self._heights[node] = self._find_height(node)
        return known

    def _find_width(self, node):
        style, have = node.style, self.containing(node)[0]
        _, border, padding = self.edges(node)
        around = border[1] + border[3] + padding[1] + padding[3]
        width = _inner(node, used(style['width'], have), around)
        if width is None:
            width = self._auto_width(node, have, around)
        most = _inner(node, used(style['max-width'], have), around)
        if most is not None:
            width = min(width, most)
        return capped(max(width, _inner(node, used(style['min-width'], have), around)))

    def _auto_width(self, node, have, around):
        if node.kind == 'image':
            return node.natural[0]
        if node.kind == 'frame':
            return FRAME_WIDTH
        margin = self.edges(node)[0]
        width = have - margin[1] - margin[3] - around
        if not self.in_flow(node):
            width -= (self.inset(node, 'left') or 0) + (self.inset(node, 'right') or 0)
        return max(width, 0)

    def _find_height(self, node):
        style, have = node.style, self.containing(node)[1]
        _, border, padding = self.edges(node)
        around = border[0] + border[2] + padding[0] + padding[2]
        height = _inner(node, _used_height(style['height'], have), around)
        if height is None:
            height = self._auto_height(node, have, around)
        most = _inner(node, _used_height(style['max-height'], have), around)
        if most is not None:
            height = min(height, most)
        least = _used_height(style['min-height'], have) or 0
        return capped(max(height, _inner(node, least, around)))

    def _auto_height(self, node, have, around):
        if node.kind == 'image':
            return node.natural[1]
        if node.kind == 'frame':
            return FRAME_HEIGHT
        if not self.in_flow(node):
            top, bottom = self.inset(node, 'top'), self.inset(node, 'bottom')
            if top is not None and bottom is not None:
                margin = self.edges(node)[0]
                return max(have - top - bottom - margin[0] - margin[2] - around, 0)
        return capped(sum([self.margin_height(child) for child in node.children
                           if self.in_flow(child) and self.has_box(child)]))

    def margin_height(self, node):
        margin, border, padding = self.edges(node)
        return (margin[0] + border[0] + padding[0] + self.height(node)
                + padding[2] + border[2] + margin[2])

    def padding_size(self, node):
        padding = self.edges(node)[2]
        return (self.width(node) + padding[1] + padding[3], self.height(node) + padding[0] + padding[2])

    def border_size(self, node):
        border = self.edges(node)[1]
        width, height = self.padding_size(node)
        return (width + border[1] + border[3], height + border[0] + border[2])

    def size(self, node, box):
        """The size of the content box, the border box, or the content box in device pixels; 0 by 0 without a box."""
        if not self.has_box(node):
            return (0, 0)
        if box == BORDER:
            return self.border_size(node)
        size = (self.width(node), self.height(node))
        if box == CONTENT:
            return size
        return tuple([cut(units * self.world.pixel_ratio + 320000, 640000) for units in size])

    def content_corner(self, node):
        """The left and top padding: the corner of a resize entry's content rectangle."""
        if not self.has_box(node):
            return (0, 0)
        padding = self.edges(node)[2]
        return (padding[3], padding[0])

    # --- positions ----------------------------------------------------------------------------------------------------------

    def _heights_above(self, node):
        """The total height of the margin boxes of the in-flow siblings before it that have a box."""
        if node not in self._above:
            total = 0
            for child in node.parent.children:
                self._above[child] = total
                if self.in_flow(child) and self.has_box(child):
                    total += self.margin_height(child)
        return self._above[node]

    def _offset(self, node):
        """The offset of its border box from that of its parent, as if it were in flow."""
        margin = self.edges(node)[0]
        if node.root_of is not None:
            return (capped(margin[3]), capped(margin[0]))
        _, border, padding = self.edges(node.parent)
        return (capped(border[3] + padding[3] + margin[3]),
                capped(border[0] + padding[0] + self._heights_above(node) + margin[0]))

    def flat_place(self, node):
        """The position of its border box in its document while nothing is scrolled."""
        known = self._flat.get(node)
        if known is None:
            known = self._flat[node] = self._find_flat_place(node)
        return known

    def _find_flat_place(self, node):
        offset = self._offset(node)
        if node.root_of is not None:
            return offset
        left, top = self.flat_place(node.parent)
        static = (left + offset[0], top + offset[1])
        if self.position(node) == 'static':
            return static
        if self.position(node) == 'relative':
            return (static[0] + self._relative(node, 'left', 'right'), static[1] + self._relative(node, 'top', 'bottom'))
        corner = self._flat_padding_corner(self.holder(node))
        return (self._absolute(node, 0, corner[0], static[0]), self._absolute(node, 1, corner[1], static[1]))

    def _relative(self, node, near, far):
        by = self.inset(node, near)
        if by is not None:
            return by
        by = self.inset(node, far)
        return 0 if by is None else -by

    def _absolute(self, node, axis, corner, static):
        """One coordinate of an out-of-flow element: by its insets in its containing block, otherwise its static position."""
        near, far = (('left', 'right'), ('top', 'bottom'))[axis]
        near_margin, far_margin = ((3, 1), (0, 2))[axis]
        margin = self.edges(node)[0]
        by = self.inset(node, near)
        if by is not None:
            return corner + clamped(by + margin[near_margin])
        by = self.inset(node, far)
        if by is not None:
            have, size = self.containing(node)[axis], self.border_size(node)[axis]
            return corner + clamped(have - by - margin[far_margin] - size)
        return static

    def _flat_padding_corner(self, holder):
        if holder is PAGE or holder is SCREEN:
            return (0, 0)
        left, top = self.flat_place(holder)
        border = self.edges(holder)[1]
        return (left + border[3], top + border[0])

    def _shift(self, node):
        """The sum of the scroll offsets in force on its containing block chain, including the viewport's."""
        known = self._shifts.get(node)
        if known is None:
            holder = self.holder(node)
            if holder is SCREEN:
                known = (0, 0)
            elif holder is PAGE:
                known = self.document_offset(node.document)
            else:
                known = self._shift(holder)
                if self.scrolls(holder):
                    offset = self.element_offset(holder)
                    known = (known[0] + offset[0], known[1] + offset[1])
            self._shifts[node] = known
        return known

    def place(self, node):
        """The position of its border box in its document's viewport; it must have a box."""
        left, top = self.flat_place(node)
        by_left, by_top = self._shift(node)
        return (left - by_left, top - by_top)

    # --- scrolling ----------------------------------------------------------------------------------------------------------

    @staticmethod
    def clips(node):
        return node.kind == 'block' and node.style['overflow'] != 'visible' and node.root_of is None

    def scrolls(self, node):
        return self.clips(node) and node.style['overflow'] != 'clip'

    def _reaches_of(self, document):
        """For each clipping box, PAGE and SCREEN: the farthest right and bottom edges, while nothing is scrolled, of the boxes
        whose containing block chain reaches it with no clipping box in between."""
        known = self._reaches.get(document)
        if known is None:
            known = self._reaches[document] = {}
            for node in self._boxes_of(document):
                holder = self.holder(node)
                while holder is not PAGE and holder is not SCREEN and not self.clips(holder):
                    holder = self.holder(holder)
                left, top = self.flat_place(node)
                width, height = self.border_size(node)
                right, bottom = known.get(holder, (left + width, top + height))
                known[holder] = (max(right, left + width), max(bottom, top + height))
        return known

    def _boxes_of(self, document):
        waiting = [document.root] if document.root is not None else []
        while waiting:
            node = waiting.pop()
            if self.has_box(node):
                yield node
                waiting.extend(node.children)

    def _range(self, size, corner, far):
        """The scroll range of a box with this size and corner whose content extends to `far`."""
        if far is None:
            return (0, 0)
        reach = (max(size[0], far[0] - corner[0]), max(size[1], far[1] - corner[1]))
        return (max(capped(reach[0]) - size[0], 0), max(capped(reach[1]) - size[1], 0))

    def element_range(self, node):
        far = self._reaches_of(node.document).get(node)
        return self._range(self.padding_size(node), self._flat_padding_corner(node), far)

    def document_range(self, document):
        far = self._reaches_of(document).get(PAGE)
        return self._range(self.viewport(document), (0, 0), far)

    def element_offset(self, node):
        """The scroll offset in force of a scroll container with a box."""
        most = self.element_range(node)
        return (min(node.scroll[0], most[0]), min(node.scroll[1], most[1]))

    def document_offset(self, document):
        most = self.document_range(document)
        return (min(document.scroll[0], most[0]), min(document.scroll[1], most[1]))

    # --- rectangles in the coordinates of `top` -----------------------------------------------------------------------------

    def origin(self, document):
        """The origin of a document's viewport."""
        known = self._origins.get(document)
        if known is None:
            frame = document.frame
            if frame is None or not self.has_box(frame):
                known = (0, 0)
            else:
                _, border, padding = self.edges(frame)
                left, top = self.border_rectangle(frame)[:2]
                known = (left + border[3] + padding[3], top + border[0] + padding[0])
            self._origins[document] = known
        return known

    def border_rectangle(self, node):
        origin, place, size = self.origin(node.document), self.place(node), self.border_size(node)
        left, top = origin[0] + place[0], origin[1] + place[1]
        return (left, top, left + size[0], top + size[1])

    def padding_rectangle(self, node):
        left, top = self.border_rectangle(node)[:2]
        border = self.edges(node)[1]
        width, height = self.padding_size(node)
        return (left + border[3], top + border[0], left + border[3] + width, top + border[0] + height)

    def viewport_rectangle(self, document):
        left, top = self.origin(document)
        width, height = self.viewport(document)
        return (left, top, left + width, top + height)


def _inner(node, length, around):
    """A given width or height, converted to that of the content box."""
    if length is None or node.style['box-sizing'] == 'content-box':
        return length
    return max(length - around, 0)


def _used_height(length, have):
    """The length of a height property in units; None for `auto` and `none`, and for a percentage without a definite height."""
    if length is not AUTO and length is not NONE and length[0] == '%' and have is None:
        return None
    return used(length, have)
