"""The layout of an engine, and a world that reports insertions and removals to the model."""
import collections

from reference.layout import BORDER, CONTENT, DEVICE, FRAME_WIDTH, SCREEN, Layout
from reference.lengths import AUTO
from reference.world import ACTIVE, Element, World, preorder, tree_document

from .traits import DEVICE_PIXELS_ARE_LAID_OUT, EDGES_REACH_OUT, EMPTY_BOXES_REACH_DOWN, EMPTY_ROOTS_COUNT_NOTHING, ONE_PIXEL_AT_LEAST, ROOT_MARGINS_COUNT

PIXEL = 64
ONE = 10000          # a ratio of 100%
FIRST_FRAME = (300 * PIXEL, 150 * PIXEL)     # the size of a frame that hasn't been laid out yet


def whole(units):
    """Rounds to whole pixels, halves up."""
    return (units + PIXEL // 2) // PIXEL * PIXEL


def whole_window(size):
    """The size of a window, which has whole pixels."""
    return tuple([whole(side) for side in size])


def whole_border(units, ratio=ONE):
    """Truncates a border to whole device pixels, but to no less than one."""
    return units and in_units(max(1, units * ratio // (PIXEL * ONE)), ratio)


def in_units(pixels, ratio):
    """Converts device pixels to units of a length, rounded."""
    return (pixels * PIXEL * ONE + ratio // 2) // ratio


def _pixels(length):
    """The units of a length; None for a percentage or a keyword."""
    return length[1] if isinstance(length, tuple) and length[0] == 'px' else None


class Sizes(collections.namedtuple('Sizes', (CONTENT, BORDER, DEVICE, 'corner'))):
    """What a resize entry reports of a target."""

    def of(self, box):
        return getattr(self, box)


NO_SIZES = Sizes((0, 0), (0, 0), (0, 0), (0, 0))


class EngineLayout(Layout):
    """The layout of an engine."""

    def __init__(self, world):
        self.differs = world.page.differs
        self._zoomed = None
        super().__init__(world)

    def shows(self, document):
        """Whether the frame of a document has a box in which the document is shown."""
        return self.has_box(document.frame) and not self.is_empty_block(document.frame)

    def is_empty_block(self, node):
        """Whether an image or a frame is laid out as a block without content, as it is a root element."""
        return node.kind != 'block' and node.root_of is not None and self.has_box(node) and self.differs('replaced-root')

    def why_no_box(self, node):
        return 'the engine shows no box'

    def _find_box(self, node):
        document, found = node.root_of, super()._find_box(node)
        if found and document is not None and document.frame is not None and not self.shows(document):
            return False
        if found or document is None or document.state is not ACTIVE or node.style['display'] == 'none':
            return found
        return self.differs('boxes-in-a-hidden-frame')

    def edges(self, node):
        known = self._edges.get(node)
        if known is None:
            margin, border, padding = super().edges(node)
            cut = tuple([whole_border(width, self.world.pixel_ratio) for width in border])
            if cut != border and self.differs(self._by_ratio('border-widths')):
                border = cut
            known = self._edges[node] = (margin, border, padding)
        return known

    def _by_ratio(self, name):
        """The class for rounding to whole pixels, which are device pixels if a ratio is set."""
        return name if self.world.pixel_ratio == ONE else 'lengths-at-a-ratio'

    def whole_sizes(self, size):
        """Both sides of a viewport, rounded to whole device pixels."""
        ratio = self.world.pixel_ratio
        return tuple([in_units((side * ratio + PIXEL * ONE // 2) // (PIXEL * ONE), ratio) for side in size])

    def window_sizes(self, size):
        """Both sides of a window, in whole device pixels: rounded, or up to the next one."""
        ratio = self.world.pixel_ratio
        if not self.world.page.has(DEVICE_PIXELS_ARE_LAID_OUT):
            return self.whole_sizes(size)
        return tuple([in_units(-(-side * ratio // (PIXEL * ONE)), ratio) for side in size])

    def whole_place(self, corner):
        """A position, rounded to whole device pixels."""
        ratio = self.world.pixel_ratio
        return tuple([in_units((units * ratio + PIXEL * ONE // 2) // (PIXEL * ONE), ratio) for units in corner])

    def size(self, node, box):
        size = super().size(node, box)
        if not self.has_box(node):
            return size
        if self.zoomed() is not None:
            return self._zoomed_size(node, box, size)
        if box != DEVICE:
            return size
        content, corner = super().size(node, CONTENT), self.world.page.placed.get(node) or self.flat_place(node)
        snapped = tuple([self._device(corner[axis], content[axis]) for axis in (0, 1)])
        return snapped if snapped != size and self.differs('device-pixels-by-place') else size

    def zoomed(self):
        """The layout in device pixels, if that is how the engine lays out boxes and a ratio is set."""
        if self.world.pixel_ratio == ONE or not self.world.page.has(DEVICE_PIXELS_ARE_LAID_OUT):
            return None
        if self._zoomed is None:
            from .zoom import ZoomedLayout
            self._zoomed = ZoomedLayout(self.world)
        return self._zoomed

    def _zoomed_size(self, node, box, size):
        if box == DEVICE:
            device = self.zoomed().device(node, self.world.page.placed.get(node))
            return device if device != size and self.differs('device-pixels-by-place') else size
        told = self.zoomed().told(node, box)
        return told if told != size and self.differs('lengths-at-a-ratio') else size

    def _device(self, start, side):
        """How many device pixels are between both edges, each rounded to the nearest one; at least one if the side is long enough."""
        ratio = self.world.pixel_ratio
        pixels = ((start + side) * ratio + 320000) // 640000 - (start * ratio + 320000) // 640000
        return 1 if not pixels and side * ratio > 4 * 10000 and self.world.page.has(ONE_PIXEL_AT_LEAST) else pixels

    def viewport(self, document):
        frame = document.frame
        if frame is None:
            own = self.world.viewport_size
            given = whole_window(own)
            own = given if given != own and self.differs('viewport-of-part-pixels') else own
            rounded = self.window_sizes(own)
            return rounded if rounded != own and self.differs('lengths-at-a-ratio') else own
        if document.state is not ACTIVE:
            size = super().viewport(document)
            return (0, 0) if size != (0, 0) and self.differs('read-of-dead-frame') else size
        if not self.shows(document):
            known = self.world.page.kept_size(document)
            return known if known != (0, 0) and self.differs('hidden-frame-keeps-size') else (0, 0)
        return self.frame_size(document)

    def frame_size(self, document):
        """The size of the viewport of a frame that has a box."""
        size = self.size(document.frame, CONTENT)
        rounded = self.whole_sizes(size)
        return rounded if rounded != size and self.differs(self._by_ratio('frame-of-part-pixels')) else size

    # --- root elements ------------------------------------------------------------------------------------------------------

    def position(self, node):
        given = super().position(node)
        return node.style['position'] if given != node.style['position'] and self.differs('positioned-root') else given

    def holder(self, node):
        if node.root_of is not None and self.position(node) == 'fixed':
            return SCREEN
        return super().holder(node)

    def _find_flat_place(self, node):
        static = super()._find_flat_place(node)
        if node.root_of is None or self.position(node) == 'static':
            return static
        if self.position(node) == 'relative':
            return (static[0] + self._relative(node, 'left', 'right'), static[1] + self._relative(node, 'top', 'bottom'))
        return (self._absolute(node, 0, 0, static[0]), self._absolute(node, 1, 0, static[1]))

    # --- widths out of flow -------------------------------------------------------------------------------------------------

    def _auto_width(self, node, have, around):
        is_block = node.kind == 'block' or self.is_empty_block(node)
        width = super()._auto_width(node, have, around)
        if is_block and node.kind != 'block':
            margin = self.edges(node)[0]
            width = max(have - margin[1] - margin[3] - around - sum([self.inset(node, side) or 0 for side in ('left', 'right')]
                                                                    if not self.in_flow(node) else []), 0)
        if self.in_flow(node) or not is_block or all(self.inset(node, side) is not None for side in ('left', 'right')):
            return width
        fit = self._fit(node, have, around)
        return fit if fit != width and self.differs('shrink-to-fit') else width

    def _auto_height(self, node, have, around):
        if not self.is_empty_block(node):
            return super()._auto_height(node, have, around)
        insets, margin = [self.inset(node, side) for side in ('top', 'bottom')], self.edges(node)[0]
        if self.in_flow(node) or None in insets:
            return node.natural[1]
        return max(have - sum(insets) - margin[0] - margin[2] - around, 0)

    def _fit(self, node, have, around):
        """The shrink-to-fit width: that of the content, within the room between its insets or after its position in the flow."""
        margin, left, right = self.edges(node)[0], self.inset(node, 'left'), self.inset(node, 'right')
        room = have - margin[1] - margin[3] - around - (left or 0) - (right or 0)
        if left is None and right is None:
            room -= self._flow_corner(node) - margin[3]
        least, most = self._content_widths(node)
        return max(min(max(least, room), most), 0)

    def _flow_corner(self, node):
        """The left edge of its margin box if it were in flow, from its containing block's corner."""
        holder = self.holder(node)
        corner = 0 if not isinstance(holder, Element) else self.flat_place(holder)[0] + self.edges(holder)[1][3]
        if node.root_of is not None:
            return self.edges(node)[0][3]
        margin, border, padding = self.edges(node.parent)
        return self.flat_place(node.parent)[0] + border[3] + padding[3] + self.edges(node)[0][3] - corner

    def _content_widths(self, node):
        """The minimum and preferred widths of its content, from its in-flow children."""
        if node.kind != 'block':
            return (node.natural[0],) * 2
        asked = [self._asked(child) for child in node.children if self.in_flow(child) and self.has_box(child)]
        return tuple([max([widths[way] for widths in asked] + [0]) for way in (0, 1)])

    def _asked(self, node):
        """What an element contributes to them: a percentage counts as `auto`, or as 0 in margins and paddings."""
        style = node.style
        edges = sum([_pixels(style['%s-%s' % (edge, side)]) or 0 for edge in ('padding', 'border') for side in ('left', 'right')])
        if any(whole_border(style['border-%s' % side][1]) != style['border-%s' % side][1] for side in ('left', 'right')):
            edges = sum([_pixels(style['padding-%s' % side]) or 0 for side in ('left', 'right')]) + sum(
                [whole_border(style['border-%s' % side][1]) for side in ('left', 'right')])
        given = _pixels(style['width'])
        widths = [self._inner_width(node, given, edges)] * 2 if given is not None else list(self._asked_by_content(node))
        most, least = _pixels(style['max-width']), _pixels(style['min-width'])
        if most is not None:
            widths = [min(width, self._inner_width(node, most, edges)) for width in widths]
        if least is not None:
            widths = [max(width, self._inner_width(node, least, edges)) for width in widths]
        margins = sum([_pixels(style['margin-%s' % side]) or 0 for side in ('left', 'right')])
        return tuple([width + edges + margins for width in widths])

    def _asked_by_content(self, node):
        if node.kind == 'block' or self.is_empty_block(node):
            return self._content_widths(node)
        natural = node.natural[0] if node.kind == 'image' else FRAME_WIDTH
        return (natural if node.style['width'] is AUTO else 0, natural)

    @staticmethod
    def _inner_width(node, width, edges):
        return width if node.style['box-sizing'] == 'content-box' else max(width - edges, 0)

    # --- positions --------------------------------------------------------------------------------------------------------

    def frame_corner(self, document):
        """The corner of a frame's content box, in the viewport of the document that the frame is in."""
        _, border, padding = self.edges(document.frame)
        left, top = self.place(document.frame)
        return left + border[3] + padding[3], top + border[0] + padding[0]

    def origin(self, document):
        known = self._origins.get(document)
        if known is None:
            known = (0, 0)
            if document.frame is not None and self.shows(document):
                corner, outer = self.frame_corner(document), self.origin(document.frame.document)
                rounded = self.whole_place(corner)
                if rounded != corner and not self.world.page.has(EDGES_REACH_OUT) and self.differs('cut-in-a-frame'):
                    corner = rounded
                known = (outer[0] + corner[0], outer[1] + corner[1])
            self._origins[document] = known
        return known

    # --- scrolling ----------------------------------------------------------------------------------------------------------

    def _reaches_of(self, document):
        known = self._reaches.get(document)
        if known is None:
            known = self._reaches[document] = {}
            self._filled = self._around_areas(document)
            for node in self._boxes_of(document):
                holder = self.holder(node)
                while isinstance(holder, Element) and not self.clips(holder):
                    holder = self.holder(holder)
                far = self._far_corner(node, holder)
                if far:
                    old = known.get(holder, far)
                    known[holder] = (max(old[0], far[0]), max(old[1], far[1]))
        return known

    def _around_areas(self, document):
        """The elements on the containing block chain of a box with an area, with no clip in between: their own boxes count too."""
        filled = set()
        for node in self._boxes_of(document):
            holder = self.holder(node) if all(self.border_size(node)) else None
            while isinstance(holder, Element) and holder not in filled and not self.clips(holder):
                filled.add(holder)
                holder = self.holder(holder)
        return filled

    def _far_corner(self, node, holder):
        """How far a box extends the scrollable overflow of what it is scrolled by, or None if it doesn't count."""
        left, top = self.flat_place(node)
        width, height = self.border_size(node)
        right, bottom = left + width, top + height
        is_deep, is_empty = node.root_of is None and node.parent is not holder, not (width and height) and node not in self._filled
        counts = not is_deep and (node.root_of is None or not self.world.page.has(EMPTY_ROOTS_COUNT_NOTHING))
        if is_empty and not is_deep and node.root_of is None:
            if self.world.page.has(EMPTY_BOXES_REACH_DOWN):
                return (right if not height and not self.differs('reach-of-empty-boxes') else self._flat_padding_corner(holder)[0], bottom)
            counts = self._is_area_inside(holder)
        elif is_empty and counts and self.position(node) != 'static':
            counts = self.in_flow(node) and all(self.viewport(node.document))
        if is_empty and not counts and self.differs('reach-of-empty-boxes'):
            return None
        if is_deep:
            return right, bottom
        margin = self.edges(node)[0] if node.root_of is None or self.world.page.has(ROOT_MARGINS_COUNT) else (0, 0, 0, 0)
        if (margin[1] or margin[2]) and self.differs('reach-with-margins'):
            right, bottom = right + margin[1], bottom + margin[2]
        if node.root_of is None:
            padding = self.edges(holder)[2]
            if (padding[1] or padding[2]) and self.differs('reach-with-padding'):
                right, bottom = right + padding[1], bottom + padding[2]
        return right, bottom

    def _is_area_inside(self, holder):
        """Whether the padding box of a scroll container, or what its in-flow children take up together, has an area."""
        if all(self.padding_size(holder)):
            return True
        corners = []
        for child in holder.children:
            if self.in_flow(child) and self.has_box(child):
                left, top = self.flat_place(child)
                width, height = self.border_size(child)
                corners += [(left, top), (left + width, top + height)]
        return bool(corners) and all(len({corner[axis] for corner in corners}) > 1 for axis in (0, 1))

    def _range(self, size, corner, far):
        if far is None:
            return (0, 0)
        most = super()._range(size, corner, far)
        rounded = tuple(max(whole(size[axis] + most[axis]) - whole(size[axis]), 0) for axis in (0, 1))
        return rounded if rounded != most and self.differs('scroll-of-part-pixels') else most


class EngineWorld(World):
    def __init__(self, version, page):
        super().__init__(version)
        self.page = page

    @property
    def layout(self):
        if self._layout is None:
            self._layout = EngineLayout(self)
        return self._layout

    def changed(self):
        self.page.is_dirty = True
        super().changed()

    def insert(self, parent, node, sibling=None):
        rooted = [(observer, observer.root.document) for observer in self.intersection_observers
                  if isinstance(observer.root, Element) and observer.registrations]
        super().insert(parent, node, sibling)
        self.page.inserted(node)
        moved = {inner: place for place, inner in enumerate(preorder(node))}
        for observer, document in sorted(rooted, key=lambda known: moved.get(known[0].root, 0)):
            if observer.root.document is not document and not self.page.has('told-by-own-document'):
                self.page.comes_last(observer)

    def remove(self, node):
        stood, where, rooted = node.parent is not None or node.root_of is not None, tree_document(node), node.root_of
        if where is not None and self.page.has('told-in-the-update') and self.layout.has_box(node):
            self.page.changed_documents.add(where)
            self.page.broken.add(where)
        super().remove(node)
        if stood:
            self.page.removed(node, where)
        if rooted is not None:
            self.page.uprooted(rooted)
