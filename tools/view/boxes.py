"""The boxes of a world at one moment, from the reference's layout: all of them come from `state`.

A state is packed so that a tick changes little of it. The position of a box is relative: horizontally to its parent's left edge, and
vertically to the bottom of the sibling before it, or else to its parent's top edge, less the parent's scroll offset. So if a list is
scrolled, only the list changes, and if a card in it grows, only that card. `Unpacked` unpacks a state, and so does boxes.js.
All numbers are units of 1/64 pixel.
"""
from reference import lengths
from reference.layout import PAGE, SCREEN
from reference.world import ACTIVE

MOST_BOXES = 5000
WHOLE = 10000                      # the initial ratio
NO_EDGES = (0,) * 8
ON_PAGE, ON_SCREEN = -1, -2
SCROLL, HOLDER = 6, 7              # indices in a record


class Things:
    """Numbers for elements and documents, in the order in which they are met."""

    def __init__(self):
        self.elements, self.documents = {}, {}

    def element(self, element):
        return self.elements.setdefault(element, len(self.elements))

    def document(self, document):
        return self.documents.setdefault(document, len(self.documents))

    def listed(self):
        """(elements, documents) for the page: name, kind and line; name, line and the frame's number, or -1."""
        documents = [[document.name, document.line or 0, -1 if document.frame is None else self.element(document.frame)]
                     for document in self.documents]
        return [[element.name, element.kind, element.line] for element in self.elements], documents


class State:
    """The elements and documents that are shown, by their numbers.

    viewport    the size of the viewport of `top`
    ratio       the device pixel ratio, in hundredths of a percent
    documents   (root or -1, scroll offset left and top, range left and top)
    elements    (left, top, width, height, edges, overflow, scroll, holder), or a text that says why it has no box
    children    the numbers of the children of each element that has any
    observed    what observes an element: tuples of `resize`, observer, line, box, whether it has been reported, last reported width and
                height; or of `intersect`, observer, line, whether it intersected the root last, index
    left_out    how many elements are left out
    has_holders whether the containing block of some box isn't its parent
    """

    def __init__(self, viewport, ratio):
        self.viewport, self.ratio = viewport, ratio
        self.documents, self.elements, self.children, self.observed = {}, {}, {}, {}
        self.left_out = 0
        self.has_holders = False
        self.scrollers = set()            # the elements that scroll
        self.base, self.touched = None, ()  # the state that this one follows, and the only elements whose records may differ from it


def state(world, things, most=MOST_BOXES):
    """The boxes of a world now."""
    layout = world.layout
    found = State(tuple(world.viewport_size), world.pixel_ratio)
    order = _shown(world)
    shown = set(order[:most])
    found.left_out = len(order) - len(shown)
    for document in [world.top] + [element.framed for element in order[:most] if _has_document(element)]:
        root = -1 if document.root is None or document.root not in shown else things.element(document.root)
        found.documents[things.document(document)] = (
            (root,) + tuple(layout.document_offset(document)) + tuple(layout.document_range(document)))
    for element in order[:most]:
        number = things.element(element)
        record = found.elements[number] = _record(layout, things, element)
        found.has_holders = found.has_holders or len(record) > HOLDER and not isinstance(record, str)
        if len(record) > SCROLL and record[SCROLL] and not isinstance(record, str):
            found.scrollers.add(number)
        if element.children:
            found.children[number] = tuple([things.element(child) for child in element.children if child in shown])
    _note_observations(world, things, found)
    return found


def followed_state(world, things, before, resized, is_rearranged=False):
    """The boxes of a world in which nothing but scroll positions and the boxes of these elements changed since this state, and, if it is
    rearranged, which elements these have in them; None if all of them have to be computed, because a box whose containing block isn't its
    parent moves relative to its parent."""
    if before is None or before.has_holders or is_rearranged and before.left_out:
        return None
    order = _shown(world) if is_rearranged else ()
    if len(order) > MOST_BOXES:
        return None
    _number(things, order)
    layout, elements, documents = world.layout, list(things.elements), list(things.documents)
    found = State(before.viewport, world.pixel_ratio)
    found.left_out, found.has_holders, found.children = before.left_out, False, before.children
    found.documents = {number: known[:1] + tuple(layout.document_offset(documents[number])) + tuple(layout.document_range(documents[number]))
                       for number, known in before.documents.items()}
    found.elements = dict(before.elements)
    found.scrollers, found.base = set(before.scrollers), before
    changed = {things.elements.get(element) for element in resized} | before.scrollers
    gone = _rearrange(things, order, resized, found) if is_rearranged else []
    changed = [number for number in changed if number in found.elements]
    found.touched = sorted(changed + gone)
    for number in changed:
        record = found.elements[number] = _record(layout, things, elements[number])
        if len(record) > SCROLL and record[SCROLL] and not isinstance(record, str):
            found.scrollers.add(number)
    _note_observations(world, things, found)
    return found


def _number(things, order):
    """Gives new elements their numbers, in the order in which `state` meets them."""
    for element in order:
        things.element(element)
        for child in element.children:
            things.element(child)


def _rearrange(things, order, resized, found):
    """Makes the elements and their children those that are shown now; the records of new ones are empty. Returns what is gone."""
    shown = {things.elements[element] for element in order}
    gone = [number for number in found.elements if number not in shown]
    found.children = dict(found.children)
    for number in gone:
        del found.elements[number]
        found.children.pop(number, None)
        found.scrollers.discard(number)
    for element in order:
        if element not in resized:
            continue
        number = things.elements[element]
        found.elements.setdefault(number, ())
        if element.children:
            found.children[number] = tuple([things.elements[child] for child in element.children])
        else:
            found.children.pop(number, None)
    return gone


def observed_again(world, things, before):
    """The boxes of a state with the observations as they are now."""
    found = State(before.viewport, world.pixel_ratio)
    found.left_out, found.has_holders, found.scrollers = before.left_out, before.has_holders, before.scrollers
    found.documents, found.elements, found.children = before.documents, before.elements, before.children
    found.base, found.touched = before.base, before.touched
    _note_observations(world, things, found)
    return found


def _has_document(element):
    return element.framed is not None and element.framed.state is ACTIVE


def _shown(world):
    """The elements of Active documents in tree order, those of a frame's document after the frame."""
    found, waiting = [], [world.top.root] if world.top.root is not None else []
    while waiting:
        element = waiting.pop()
        found.append(element)
        waiting.extend(reversed(element.children))
        if _has_document(element) and element.framed.root is not None:
            waiting.append(element.framed.root)
    return found


def _record(layout, things, element):
    if not layout.has_box(element):
        return layout.why_no_box(element)
    left, top, right, bottom = layout.border_rectangle(element)
    from_left, from_top = _corner(layout, element)
    _, border, padding = layout.edges(element)
    edges = tuple(border) + tuple(padding)
    clips, scrolls = layout.clips(element), layout.scrolls(element)
    record = [left - from_left, top - from_top, right - left, bottom - top, 0 if edges == NO_EDGES else edges,
              element.style['overflow'] if clips else 0,
              tuple(layout.element_offset(element)) + tuple(layout.element_range(element)) if scrolls else 0,
              _holder(layout, things, element)]
    while record[-1] == 0 and len(record) > 4:
        record.pop()
    return tuple(record)


def _holder(layout, things, element):
    """0 if the containing block is the parent, or the page for a root element; otherwise one of the constants, or the number of the
    containing block's element plus 1."""
    holder = layout.holder(element)
    if holder is element.parent or element.parent is None:
        return 0
    return ON_PAGE if holder is PAGE else ON_SCREEN if holder is SCREEN else things.element(holder) + 1


def _corner(layout, element):
    """The point that a box's position is relative to."""
    if element.parent is None:
        origin, offset = layout.origin(element.document), layout.document_offset(element.document)
    else:
        origin = layout.border_rectangle(element.parent)[:2]
        offset = layout.element_offset(element.parent) if layout.scrolls(element.parent) else (0, 0)
        before = _before(layout, element)
        if before is not None:
            return origin[0] - offset[0], layout.border_rectangle(before)[3]
    return origin[0] - offset[0], origin[1] - offset[1]


def _before(layout, element):
    """The sibling with a box before an element, or None."""
    all_known, parent = layout.__dict__.setdefault('_siblings_before', {}), element.parent
    known = all_known.get(parent)
    if known is None:
        known, before = {}, None
        for child in parent.children:
            known[child] = before
            if layout.has_box(child):
                before = child
        all_known[parent] = known
    return known[element]


def _note_observations(world, things, found):
    observed = {}
    for document in world.documents:
        for observer in document.resize_observers:
            for target, observation in observer.observations.items():
                observed.setdefault(target, []).append(('resize', observer.name, observation.line, observation.box,
                                                        int(observation.told)) + tuple(observation.last_reported))
    for observer in world.intersection_observers:
        for target, registration in observer.registrations.items():
            observed.setdefault(target, []).append(('intersect', observer.name, registration.line, int(registration.meets),
                                                    registration.index))
    for target, told in observed.items():
        number = things.elements.get(target)
        if number in found.elements:
            found.observed[number] = tuple(told)


# --- what changes -----------------------------------------------------------------------------------------------------------

PARTS = ('documents', 'elements', 'children', 'observed')


def difference(before, after):
    """What differs in the state after, by the parts of a state, with None for what is gone. `before` may be None."""
    changed = {}
    if before is None or before.viewport != after.viewport:
        changed['viewport'] = after.viewport
    if after.ratio != (WHOLE if before is None else before.ratio):
        changed['ratio'] = after.ratio
    for part in PARTS:
        old, new = {} if before is None else getattr(before, part), getattr(after, part)
        if old is new:
            continue
        if part == 'elements' and before is not None and after.base is before:
            other = {number: new.get(number) for number in after.touched if old.get(number) != new.get(number)}
            changed.update({part: other} if other else {})
            continue
        other = {number: value for number, value in new.items() if old.get(number) != value}
        other.update({number: None for number in old if number not in new})
        if other:
            changed[part] = other
    if after.left_out:
        changed['leftOut'] = after.left_out
    return changed


def count(changed):
    """How many values a difference has."""
    return sum([len(changed.get(part, ())) for part in PARTS])


# --- unpacking --------------------------------------------------------------------------------------------------------------

class Box:
    """A box in the coordinates of `top`: (left, top, right, bottom), its visible part or None, and its document's origin."""

    def __init__(self, rectangle, seen, origin, level):
        self.rectangle, self.seen, self.origin, self.level = rectangle, seen, origin, level


def _inner(rectangle, edges, borders_alone):
    """The padding box, or the content box, of a border box."""
    by = [edges[side] + (0 if borders_alone else edges[4 + side]) for side in range(4)]
    return (rectangle[0] + by[3], rectangle[1] + by[0], rectangle[2] - by[1], rectangle[3] - by[2])


def _common(one, other):
    return (max(one[0], other[0]), max(one[1], other[1]), min(one[2], other[2]), min(one[3], other[3]))


class Unpacked:
    """The boxes of a state in the coordinates of `top`, by document, in the order in which these are updated."""

    def __init__(self, packed, frames):
        self.packed, self.frames = packed, frames         # frames: a frame element's number -> its document's
        self.boxes, self.parent, self.window = {}, {}, {}  # window: where the boxes that an element contains are visible
        whole = (0, 0) + packed.viewport
        self._document(0, whole, whole)

    def _document(self, number, viewport, window):
        root, left, top = self.packed.documents[number][:3]
        waiting, corners, framed = [(root, 1)] if root >= 0 else [], {root: (viewport[0] - left, viewport[1] - top)}, []
        while waiting:
            element, level = waiting.pop()
            record = self.packed.elements[element]
            if not isinstance(record, str):
                outer = self._outer_window(element, record, window)
                self._place(element, record, corners, outer, viewport[:2], level)
                if self.frames.get(element) in self.packed.documents:
                    framed.append((element, record, outer))
            waiting.extend([(child, level + 1) for child in reversed(self.packed.children.get(element, ()))])
        for element, record, outer in framed:
            content = _inner(self.boxes[element].rectangle, _rest(record)[0], False)
            self._document(self.frames[element], content, _common(outer, content))

    def _outer_window(self, element, record, window):
        """Where an element's box is visible, `window` being where its document is."""
        holder = _rest(record)[3]
        if holder > 0:
            return self.window[holder - 1]
        return self.window[self.parent[element]] if holder == 0 and element in self.parent else window

    def _place(self, element, record, corners, outer, origin, level):
        left, top = corners[element][0] + record[0], corners[element][1] + record[1]
        rectangle = (left, top, left + record[2], top + record[3])
        edges, overflow, scroll, _ = _rest(record)
        seen = _common(rectangle, outer)
        self.boxes[element] = Box(rectangle, seen if seen[0] <= seen[2] and seen[1] <= seen[3] else None, origin, level)
        self.window[element] = _common(outer, _inner(rectangle, edges, True)) if overflow else outer
        if scroll:
            left, top = left - scroll[0], top - scroll[1]
        for child in self.packed.children.get(element, ()):
            self.parent[child], corners[child] = element, (left, top)
            inner = self.packed.elements[child]
            if not isinstance(inner, str):
                top += inner[1] + inner[3]


def _rest(record):
    more = tuple(record[4:]) + (0,) * (8 - len(record))
    return more[0] or NO_EDGES, more[1], more[2], more[3]


def inspected(packed, elements, documents):
    """The lines of `--inspect` for a state, in the order of its elements; the names are those of `Things.listed`."""
    frames = {frame: number for number, (_, _, frame) in enumerate(documents) if frame >= 0}
    unpacked = Unpacked(packed, frames)
    for element, box in unpacked.boxes.items():
        seen = 'hidden' if box.seen is None else 'seen ' + lengths.rectangle_text(_moved(box.seen, box.origin))
        yield 'box %s %d %s %s' % (elements[element][0], box.level, lengths.rectangle_text(_moved(box.rectangle, box.origin)),
                                   seen)


def _moved(rectangle, origin):
    return (rectangle[0] - origin[0], rectangle[1] - origin[1], rectangle[2] - origin[0], rectangle[3] - origin[1])
