"""What an intersection observer finds, queues and reports (the rule 'Intersections' of docs/RULES.md; Intersection Observer,
2.2 and 3.2). Only version 2 has scroll margins.

Rectangles are (left, top, right, bottom), in the coordinates of `top` except in entries.
"""
from .layout import PAGE, SCREEN
from .lengths import dilated
from .world import Document, Element, Task, tree_document

NOTHING = (0, 0, 0, 0)


class Clip:
    """A rectangle between a target and its root: the element or document that it belongs to, and `border box`, `padding box`
    or `viewport`. `own` is the rectangle before it is expanded by a margin."""

    def __init__(self, thing, box, rectangle, own=None):
        self.thing, self.box, self.rectangle, self.own = thing, box, rectangle, own


class Entry:
    """What was found for a target, its rectangles as they are reported. For explanations: `before` is (index, whether it
    intersected) of the last update; `unseen` says why nothing is visible, if the target is apart from the root or has no box;
    `clips` are the clips between them, with the target's own box first and the root's rectangle last."""
    __slots__ = ('target', 'time', 'index', 'meets', 'before', 'part', 'whole', 'root', 'box', 'cut', 'unseen', 'clips')

    def __init__(self, target, root):
        self.target, self.root = target, root
        self.time, self.before, self.unseen, self.clips = 0, None, None, ()
        self.box = self.cut = NOTHING
        self.part, self.whole, self.meets, self.index = 0, 1, False, 0


def common_part(rectangles):
    """The rectangle common to all, which may be a mere edge or point; None if no point is common."""
    left = max([rectangle[0] for rectangle in rectangles])
    top = max([rectangle[1] for rectangle in rectangles])
    right = min([rectangle[2] for rectangle in rectangles])
    bottom = min([rectangle[3] for rectangle in rectangles])
    return (left, top, right, bottom) if left <= right and top <= bottom else None


def seen_from(origin, rectangle):
    """Converts a rectangle from the coordinates of `top` to those of a viewport with this origin."""
    left, top = origin
    return (rectangle[0] - left, rectangle[1] - top, rectangle[2] - left, rectangle[3] - top)


def area(rectangle):
    return (rectangle[2] - rectangle[0]) * (rectangle[3] - rectangle[1])


def stands_below(layout, target, root):
    holder = layout.holder(target)
    while holder is not PAGE and holder is not SCREEN:
        if holder is root:
            return True
        holder = layout.holder(holder)
    return False


def clips_between(layout, target, root, scroll_margins=None):
    """The target's border box and what clips it up to the root, which is None, a document or an element above it."""
    clips = [Clip(target, 'border box', layout.border_rectangle(target))]
    at = target
    while True:
        holder = layout.holder(at)
        if holder is PAGE or holder is SCREEN:
            document = at.document
            if document is root or document.frame is None:
                return clips
            clips.append(Clip(document, 'viewport', layout.viewport_rectangle(document)))
            at = document.frame
            if at is root:
                return clips
        elif holder is root:
            return clips
        else:
            if layout.clips(holder):
                rectangle = own = layout.padding_rectangle(holder)
                if scroll_margins is not None and layout.scrolls(holder):
                    rectangle = dilated(own, scroll_margins)
                clips.append(Clip(holder, 'padding box', rectangle, own))
            at = holder


class RootRectangle:
    """An observer's root rectangle: the root's own one, the same expanded by the margins, and the origin of its coordinates."""

    def __init__(self, world, observer):
        layout, root = world.layout, observer.root
        self.origin = (0, 0)
        if root is None:
            self.thing, self.box, self.own = world.top, 'viewport', layout.viewport_rectangle(world.top)
        elif isinstance(root, Document):
            self.thing, self.box, self.own = root, 'viewport', layout.viewport_rectangle(root)
            self.origin = layout.origin(root)
        elif not layout.has_box(root):
            self.thing, self.box, self.own = root, 'no box', NOTHING
        else:
            self.thing, self.origin = root, layout.origin(root.document)
            self.box = 'padding box' if layout.clips(root) else 'border box'
            self.own = layout.padding_rectangle(root) if layout.clips(root) else layout.border_rectangle(root)
        self.rectangle = dilated(self.own, observer.margins)


def _why_apart(layout, root, target):
    """Why this target is apart from this root, as a part of a sentence, or None."""
    if root is None:
        return None
    root_document = root if isinstance(root, Document) else root.document
    if target.document is not root_document:
        return 'the target belongs to the document `%s`, and the root to `%s`' % (target.document.name, root_document.name)
    if isinstance(root, Document):
        return None
    for node, called in ((root, 'root'), (target, 'target')):
        if not layout.has_box(node):
            return 'the %s `%s` has no box: %s' % (called, node.name, layout.why_no_box(node))
    if not stands_below(layout, target, root):
        return "the root `%s` isn't on the containing block chain of the target `%s`" % (root.name, target.name)
    return None


def find(world, observer, root, target):
    """What an observer with this root rectangle finds for a target now."""
    layout = world.layout
    entry = Entry(target, seen_from(root.origin, root.rectangle))
    entry.unseen = _why_apart(layout, observer.root, target)
    if entry.unseen is not None:
        return entry
    if not layout.has_box(target):
        entry.unseen = 'the target `%s` has no box: %s' % (target.name, layout.why_no_box(target))
    else:
        entry.clips = clips_between(layout, target, observer.root, observer.scroll_margins)
        entry.clips.append(Clip(root.thing, root.box, root.rectangle, root.own))
        measure(layout, entry)
    entry.index = index_of(observer, entry)
    return entry


def index_of(observer, entry):
    return sum([1 for threshold in observer.thresholds if threshold * entry.whole <= entry.part * 10000])


def measure(layout, entry):
    """Sets what is visible within the clips."""
    box = entry.clips[0].rectangle
    cut = common_part([clip.rectangle for clip in entry.clips])
    here = layout.origin(entry.target.document)
    entry.meets = cut is not None
    entry.box = seen_from(here, box)
    if cut is not None:
        entry.cut = seen_from(here, cut)
    if area(box) == 0:
        entry.part, entry.whole = (1 if entry.meets else 0), 1
    else:
        entry.part, entry.whole = (area(cut) if entry.meets else 0), area(box)


def observers_of(world, document):
    """The observers that are updated and notified with a document, in order of creation."""
    def belongs(observer):
        root = observer.root
        if root is None:
            return document is world.top
        return root is document or (isinstance(root, Element) and tree_document(root) is document)
    return [observer for observer in world.intersection_observers if belongs(observer)]


def update(world, document):
    """Queues an entry for each target whose index or isIntersecting differs from that of the last update."""
    queued = False
    for observer in observers_of(world, document):
        root = RootRectangle(world, observer)
        for registration in observer.registrations.values():
            entry = find(world, observer, root, registration.target)
            entry.before = (registration.index, registration.meets)
            if entry.before != (entry.index, entry.meets):
                entry.time = world.clock
                observer.queue.append(entry)
                queued = True
            registration.index, registration.meets = entry.index, entry.meets
    if queued and not document.notify_queued:
        document.notify_queued = True
        world.tasks.append(Task(document))
