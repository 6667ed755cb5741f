"""The page at a ratio as Chromium lays it out: each length is in 1/64 device pixel, truncated."""
import copy

from reference.layout import FRAME_HEIGHT, FRAME_WIDTH

from .layout import ONE, PIXEL, EngineLayout, whole_window


class ZoomedPage:
    """What a layout asks its page, without noting classes."""
    placed = {}

    def __init__(self, model):
        self.model, self.has = model, model.has

    def differs(self, name):
        return self.has(name)

    @staticmethod
    def kept_size(document):
        return (0, 0)


class ZoomedLayout(EngineLayout):
    """The layout of copies of all elements, whose lengths are multiplied by the ratio; there a device pixel is a pixel."""

    def __init__(self, world):
        self.real, self.copies = world, {}
        self.pixel_ratio, self.page = ONE, ZoomedPage(world.page)
        # A window has whole device pixels.
        self.viewport_size = tuple([-(-side * world.pixel_ratio // (PIXEL * ONE)) * PIXEL for side in whole_window(world.viewport_size)])
        super().__init__(self)
        for document in world.documents:
            mine = self.copied(document)
            mine.root, mine.frame = self.copied(document.root), self.copied(document.frame)

    def scaled(self, units):
        return units * self.real.pixel_ratio // ONE

    def scaled_all(self, sizes):
        return tuple([self.scaled(units) for units in sizes])

    def copied(self, thing):
        if thing is None or thing in self.copies:
            return self.copies.get(thing)
        mine = self.copies[thing] = copy.copy(thing)
        mine.scroll = (0, 0)
        if hasattr(thing, 'style'):
            mine.style = {name: ('px', self.scaled(value[1])) if isinstance(value, tuple) and value[0] == 'px' else value
                          for name, value in thing.style.items()}
            mine.natural = self.scaled_all(thing.natural)
            mine.parent, mine.document, mine.root_of = self.copied(thing.parent), self.copied(thing.document), self.copied(thing.root_of)
            mine.children = [self.copied(child) for child in thing.children]
        return mine

    def _auto_width(self, node, have, around):
        return self.scaled(FRAME_WIDTH) if node.kind == 'frame' else super()._auto_width(node, have, around)

    def _auto_height(self, node, have, around):
        return self.scaled(FRAME_HEIGHT) if node.kind == 'frame' else super()._auto_height(node, have, around)

    def _asked_by_content(self, node):
        widths = super()._asked_by_content(node)
        return tuple([self.scaled(width) for width in widths]) if node.kind == 'frame' else widths

    def told(self, node, box):
        """A size in 1/64 pixel, truncated once more."""
        return tuple([side * ONE // self.real.pixel_ratio for side in self.size(self.copied(node), box)])

    def device(self, node, placed):
        """A content size in device pixels, with the position as the round began."""
        mine = self.copied(node)
        corner = self.scaled_all(placed) if placed else self.flat_place(mine)
        return tuple([self._device(corner[axis], side) for axis, side in enumerate((self.width(mine), self.height(mine)))])
