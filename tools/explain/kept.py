"""A world of the reference whose layout is kept where a command changes one element: its style, its natural size, or where it stands. What
is in it, the heights up to the first ancestor that has one of its own, and the positions of what comes after, are worked out, and all else
stays. The reference itself discards the whole layout, as this world does where a page has frames, positions, or lengths at their limit.

Gives to others: `KeptWorld(version)`; `about_to(command, node)` says before a command what it changes; `resized` are the elements whose
boxes may be others since it was emptied, and `is_rearranged` says that there may be others than then.
"""
from reference.layout import Layout
from reference.lengths import GREATEST, capped
from reference.world import World, preorder

_HEIGHTS = ('height', 'min-height', 'max-height')
_PLACED = ('position', 'top', 'right', 'bottom', 'left')


class KeptLayout(Layout):
    """A layout that follows changes of one element. Whatever it has worked out is right at any time: a value that is looked up while others
    are being changed must not depend on these. If all that a value depends on wasn't looked up yet, the value wasn't either."""

    def __init__(self, world):
        Layout.__init__(self, world)
        self._sums, self._sizes = {}, {}       # a block -> the height of what it contains; an element -> the size of its border box
        self._insides, self._outsides = {}, {}  # how far what is in an element reaches from its corner, and that with its own box
        self._siblings_before = {}             # a block -> a child -> the sibling with a box before it
        self.is_at_limit = False               # whether an offset was cut to the greatest length
        self._of_elements = (self._boxes, self._containing, self._edges, self._widths, self._heights, self._above, self._flat, self._sums,
                             self._sizes, self._insides, self._outsides, self._siblings_before)

    # --- what is looked up ----------------------------------------------------------------------------------------------------

    def border_size(self, node):
        known = self._sizes.get(node)
        if known is None:
            known = self._sizes[node] = Layout.border_size(self, node)
        return known

    def _auto_height(self, node, have, around):
        if node.kind != 'block' or not self.in_flow(node):
            return Layout._auto_height(self, node, have, around)
        known = self._sums.get(node)
        if known is None:
            known = self._sums[node] = sum([self.margin_height(child) for child in node.children
                                            if self.in_flow(child) and self.has_box(child)])
        return capped(known)

    def _offset(self, node):
        offset = Layout._offset(self, node)
        if offset[0] == GREATEST or offset[1] == GREATEST:
            self.is_at_limit = True
        return offset

    def element_range(self, node):
        if not self.world.is_plain:
            return Layout.element_range(self, node)
        corner, inside = self.flat_place(node), self._inside(node)
        far = None if inside is None else (corner[0] + inside[0], corner[1] + inside[1])
        return self._range(self.padding_size(node), self._flat_padding_corner(node), far)

    def document_range(self, document):
        if not self.world.is_plain:
            return Layout.document_range(self, document)
        root, far = document.root, None
        if root is not None and self.has_box(root):
            corner, outside = self.flat_place(root), self._outside(root)
            far = (corner[0] + outside[0], corner[1] + outside[1])
        return self._range(self.viewport(document), (0, 0), far)

    def _inside(self, node):
        """How far the boxes in an element reach to the right and down from its corner, up to clipping boxes; None if there are none."""
        if node not in self._insides:
            inner = [child for child in node.children if self.has_box(child)]
            self._insides[node] = self._reach(node, inner) if inner else None
        return self._insides[node]

    def _reach(self, node, inner):
        left, top = self.flat_place(node)
        places = [self._flat.get(child) or self.flat_place(child) for child in inner]
        sizes = [self._outsides.get(child) or self._outside(child) for child in inner]
        return (max([place[0] + size[0] for place, size in zip(places, sizes)]) - left,
                max([place[1] + size[1] for place, size in zip(places, sizes)]) - top)

    def _outside(self, node):
        """The same with its own box; what is in it doesn't count where it clips."""
        known = self._outsides.get(node)
        if known is None:
            known, inside = self.border_size(node), None if self.clips(node) else self._inside(node)
            if inside is not None:
                known = (max(known[0], inside[0]), max(known[1], inside[1]))
            self._outsides[node] = known
        return known

    # --- changes of one element; each returns whether it could be followed ------------------------------------------------------

    def changed_in(self, node, resized):
        """Follows a change of an element's own style or natural size."""
        parent = node.parent
        if parent is None:
            return node.root_of is None                         # what stands nowhere has no box
        if not self._holds_boxes(parent):
            resized.update(preorder(node))                      # only the reason for which they have none may be another one
            return True
        had_box, before = self._boxes.get(node), self._share(node)
        if had_box is None:
            had_box = False
        known, inner = self._known_of(node), self._containing_inside(node)
        for kept in (self._boxes, self._edges, self._widths, self._heights, self._sizes):
            kept.pop(node, None)
        if had_box and self.has_box(node) and inner is not None and self._still_fits(node, inner):
            self._move_inside(node, known)
            resized.update(node.children)
        else:
            self._forget_inside(node)
            self._flat.pop(node, None)
            resized.update(preorder(node))
        resized.add(node)
        if had_box != self.has_box(node):
            self._siblings_before.pop(parent, None)
        return self._follow(parent, node, parent.children.index(node) + 1, before, resized)

    def entered(self, node, resized):
        """Follows the insertion of an element."""
        parent = node.parent
        if parent is None:
            return False
        resized.add(parent)
        resized.update(preorder(node))
        self._forget(node)
        self._siblings_before.pop(parent, None)
        if not self._holds_boxes(parent):
            return True
        place = parent.children.index(node)
        sibling = parent.children[place - 1] if place else None
        if sibling is None:
            self._above[node] = 0
        elif sibling in self._above:
            self._above[node] = self._above[sibling] + (self._share(sibling) or 0)
        return self._follow(parent, node, place + 1, 0, resized)

    def left(self, parent, place, node, resized):
        """Follows the removal of an element that stood at this place in its parent."""
        resized.add(parent)
        before = self._share(node)
        self._forget(node)
        self._siblings_before.pop(parent, None)
        return not self._holds_boxes(parent) or self._follow(parent, None, place, before, resized)

    def _holds_boxes(self, parent):
        return parent.kind == 'block' and self.has_box(parent)

    def _share(self, node):
        """What an element adds to the height of its parent, as looked up; None if it wasn't, so that nothing depends on it."""
        if self._boxes.get(node) is False:
            return 0
        return self.margin_height(node) if node in self._heights else None

    def _known_of(self, node):
        return (self._flat.get(node), self._edges.get(node))

    def _containing_inside(self, node):
        """The containing width and height of what is in an element, as looked up; None if they weren't."""
        for child in node.children:
            if child in self._containing:
                return self._containing[child]
        return None

    def _still_fits(self, node, before):
        """Whether what is in an element keeps its sizes."""
        height = self.height(node) if self._is_definite(node) else None
        if self.width(node) != before[0] or self.world.has_shares and height != before[1]:
            return False
        if height != before[1]:
            for child in node.children:
                self._containing.pop(child, None)
        return True

    def _move_inside(self, node, known):
        """Moves what is in an element along with it and with its edges."""
        place, edges = known
        self._flat.pop(node, None)
        if place is None or edges is None:
            self._forget_places_inside(node)
            return
        _, border, padding = edges
        now, (_, border_now, padding_now) = self.flat_place(node), self.edges(node)
        by_left = now[0] + border_now[3] + padding_now[3] - place[0] - border[3] - padding[3]
        by_top = now[1] + border_now[0] + padding_now[0] - place[1] - border[0] - padding[0]
        if by_left or by_top:
            self._move_within(node, by_left, by_top)

    def _follow(self, parent, node, place, before, resized):
        """Follows to what comes after an element, from this place in its parent on, and upwards. `node` is None if it has left."""
        for child in parent.children[place:]:
            if self.has_box(child):
                resized.add(child)                              # whose place is told from the sibling before it
                break
        if before is not None:
            by = (self.margin_height(node) if node is not None and self.has_box(node) else 0) - before
            if by:
                self._move_after(parent, place, by)
                if parent in self._sums:
                    self._sums[parent] += by
                self._follow_height(parent, resized)
        self._forget_reach(parent if node is None else node)
        self.forget_places()
        return not self.is_at_limit

    def _follow_height(self, node, resized):
        """Follows upwards that what is in an element has another height."""
        while node is not None and node in self._heights:
            before, parent = self.margin_height(node), node.parent
            self._heights.pop(node)
            self._sizes.pop(node, None)
            by = self.margin_height(node) - before
            if not by:
                return
            resized.add(node)
            if parent is not None:
                self._move_after(parent, parent.children.index(node) + 1, by)
                if parent in self._sums:
                    self._sums[parent] += by
            node = parent

    def _move_after(self, parent, place, by):
        """Moves what comes from a place on in its parent down by so much."""
        above, flat, top = self._above, self._flat, 0
        for child in parent.children[place:]:
            if child in above:
                above[child] += by
            known = flat.get(child)
            if known is not None:
                top = known[1] + by
                flat[child] = (known[0], top)
            if child.children:
                self._move_within(child, 0, by)
        if top > GREATEST:
            self.is_at_limit = True

    def _move_within(self, node, by_left, by_top):
        waiting, flat = list(node.children), self._flat
        while waiting:
            inner = waiting.pop()
            known = flat.get(inner)
            if known is not None:
                flat[inner] = (known[0] + by_left, known[1] + by_top)
            waiting.extend(inner.children)

    # --- what is looked up again ----------------------------------------------------------------------------------------------

    def _forget(self, node):
        """Forgets all about an element and what is in it."""
        self._forget_inside(node)
        for kept in self._of_elements:
            kept.pop(node, None)

    def _forget_inside(self, node):
        waiting = list(node.children)
        while waiting:
            inner = waiting.pop()
            for kept in self._of_elements:
                kept.pop(inner, None)
            waiting.extend(inner.children)
        self._sums.pop(node, None)
        self._siblings_before.pop(node, None)

    def _forget_places_inside(self, node):
        waiting = list(node.children)
        while waiting:
            inner = waiting.pop()
            self._flat.pop(inner, None)
            waiting.extend(inner.children)

    def _forget_reach(self, node):
        while node is not None:
            self._insides.pop(node, None)
            self._outsides.pop(node, None)
            node = node.parent


class KeptWorld(World):
    """A world with such a layout. `is_plain` says that each box's containing block is its parent; `has_shares`, that a height may depend
    on another one but by an automatic height."""

    def __init__(self, version):
        World.__init__(self, version)
        self.is_plain, self.has_shares = True, False
        self.changes, self.inserts, self.removes = None, None, None  # what the next `changed` is about
        self.resized, self.is_rearranged = set(), False

    @property
    def layout(self):
        if self._layout is None:
            self._layout = KeptLayout(self)
        return self._layout

    def active_documents(self):
        """Without a frame there is only `top`."""
        return [self.top] if len(self.documents) == 1 else World.active_documents(self)

    def about_to(self, command, node):
        """Notes what a command is about to change; `node` is the element that it names first, if it does."""
        self.changes = None
        if command.name == 'frame':
            self.is_plain = False
        elif command.name == 'set':
            property_, value = command.operands[1].value, command.operands[2].value[1]
            if property_ in _PLACED:
                self.is_plain = False
            elif property_ in _HEIGHTS and isinstance(value, tuple) and value[0] == '%':
                self.has_shares = True
            self.changes = node
        elif command.name in ('grow', 'load'):
            self.changes = node

    def insert(self, parent, node, sibling=None):
        self.inserts = node
        World.insert(self, parent, node, sibling)
        self.inserts = None

    def remove(self, node):
        inserts, parent = self.inserts, node.parent
        self.inserts = None
        self.removes = None if parent is None else (parent, parent.children.index(node), node)
        World.remove(self, node)
        self.inserts, self.removes = inserts, None

    def changed(self):
        if not (self.is_plain and self._layout is not None and self._follow(self._layout)):
            World.changed(self)
            self.forget_all()

    def _follow(self, layout):
        if self.removes is not None or self.inserts is not None:
            self.is_rearranged = True
        if layout.is_at_limit:
            return False
        if self.removes is not None:
            parent, place, node = self.removes
            return layout.left(parent, place, node, self.resized)
        if self.inserts is not None:
            return layout.entered(self.inserts, self.resized)
        return self.changes is not None and layout.changed_in(self.changes, self.resized)

    def forget_all(self):
        """Called if the whole layout is discarded."""
