"""CSS Scroll Anchoring as an engine implements it: a scroll offset follows the first box in view."""
from reference.world import ACTIVE, Document, path

from .layout import whole
from .traits import ANCHORS_BEFORE_LAYOUT, LATE_SCROLLS

# If one of these changes on an element between the anchor and the scroll container, the offset isn't adjusted.
QUIETING = ('width', 'height', 'min-', 'max-', 'margin', 'padding')


class Anchors:
    def __init__(self, model):
        self.model = model
        self.kept = {}            # what is scrolled -> its anchor, or None, and the anchor's position
        self.laid = {}            # what is scrolled -> box -> its bounds and its position at the last layout
        self.quiet = set()        # elements with a change since the last layout that suppresses adjustments

    def changes(self, node, property_):
        if property_.startswith(QUIETING):
            self.quiet.add(node)

    def scrolls(self, thing):
        """Selects a new anchor when something is scrolled."""
        self.kept.pop(thing, None)
        self.keep(thing)
        if thing.scroll[1]:
            self.remember(thing)

    def removed(self, node):
        """A box is removed or created anew: it is no longer an anchor, and has no position before the next layout."""
        for thing, (box, _) in list(self.kept.items()):
            if box is node:
                del self.kept[thing]
        for known in self.laid.values():
            known.pop(node, None)

    def scrolled_in(self, document):
        """What is scrolled in a document and has a box."""
        layout = self.model.world.layout
        if document.scroll[1] and (document.frame is None or layout.shows(document)):
            yield document
        for node in layout._boxes_of(document):
            if node.scroll[1] and layout.scrolls(node):
                yield node

    def moved(self, document):
        """(thing, by how much) for each offset to be adjusted when a document has been laid out."""
        layout = self.model.world.layout
        for thing in self.scrolled_in(document):
            box, place = self.kept.get(thing, (None, 0))
            if self.is_gone(thing, box) and self.model.has(ANCHORS_BEFORE_LAYOUT):
                box, place = self.as_laid(thing)
            if self.is_gone(thing, box):
                continue
            by = self.rounded(self.place(thing, box)) - self.rounded(place)
            if any(node in self.quiet for node in self.between(thing, box)):
                self.kept.pop(thing, None)
            elif by:
                yield thing, by

    def rounded(self, place):
        """If offsets are whole pixels, each of two positions is rounded."""
        return whole(place) if self.model.has(LATE_SCROLLS) else place

    def is_gone(self, thing, box):
        return box is None or not self.model.world.layout.has_box(box) or not self.holds(thing, box)

    def as_laid(self, thing):
        """The first box in view among those that existed at the last layout and still do, and its position then."""
        known, layout = self.laid.get(thing, {}), self.model.world.layout
        box = self.first_in_view(thing, lambda node: known[node][0] if node in known and layout.has_box(node) else None)
        return box, box and known[box][1]

    def settle(self, document):
        """Remembers the positions of boxes at the end of a layout."""
        for thing in self.scrolled_in(document):
            self.keep(thing)
            self.remember(thing)
        self.quiet = {node for node in self.quiet if node.document is not document}

    def remember(self, thing):
        """Remembers the positions of the boxes in something that has just been laid out."""
        if self.model.has(ANCHORS_BEFORE_LAYOUT):
            document = thing if isinstance(thing, Document) else thing.document
            boxes = [node for node in self.model.world.layout._boxes_of(document) if self.holds(thing, node)]
            self.laid[thing] = {node: (self.bounds(node), self.place(thing, node)) for node in boxes}

    def keep(self, thing):
        if not thing.scroll[1]:
            return
        box = self.kept.get(thing, (None, 0))[0]
        if self.is_gone(thing, box):
            box = self.first_in_view(thing, self.bounds_of_boxes)
        self.kept[thing] = box, box and self.place(thing, box)

    @staticmethod
    def holds(thing, box):
        return box.document is thing if isinstance(thing, Document) else thing in path(box)

    @staticmethod
    def between(thing, box):
        for node in path(box):
            yield node
            if node is thing:
                return

    def place(self, thing, box):
        layout = self.model.world.layout
        return layout.flat_place(box)[1] - (0 if isinstance(thing, Document) else layout._flat_padding_corner(thing)[1])

    def bounds_of_boxes(self, node):
        return self.bounds(node) if self.model.world.layout.has_box(node) else None

    def first_in_view(self, thing, bounds_of):
        layout = self.model.world.layout
        if isinstance(thing, Document):
            corner, size, first = (0, 0), layout.viewport(thing), [thing.root] if thing.root else []
        else:
            corner, size, first = layout._flat_padding_corner(thing), layout.padding_size(thing), thing.children
        left, top = corner[0] + thing.scroll[0], corner[1] + thing.scroll[1]
        return self.search(first, (left, top, left + size[0], top + size[1]), bounds_of)

    def search(self, nodes, view, bounds_of):
        """The first box that is entirely in view, or partly in view with no such box in it."""
        for node in nodes:
            bounds = bounds_of(node)
            if bounds is None:
                continue
            left, top, right, bottom = bounds
            if right > left and bottom > top and left < view[2] and right > view[0] and top < view[3] and bottom > view[1]:
                inside = left >= view[0] and top >= view[1] and right <= view[2] and bottom <= view[3]
                return node if inside else self.search(node.children, view, bounds_of) or node
        return None

    def bounds(self, node):
        """The border box, extended downwards by what overflows it."""
        layout = self.model.world.layout
        left, top = layout.flat_place(node)
        width, height = layout.border_size(node)
        bottom = top + height
        if not layout.clips(node):
            for child in node.children:
                if layout.has_box(child):
                    bottom = max(bottom, self.bounds(child)[3])
        return left, top, left + width, bottom
