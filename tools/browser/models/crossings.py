"""What an engine's intersection observers find, and when they are notified."""
from reference import intersection, trace
from reference.lengths import percentage
from reference.world import ACTIVE, Document, Element, tree_document

from .layout import ONE, PIXEL, in_units, whole
from .traits import (CROSSED_IS_TURNED, DEAD_ROOTS_OF_A_LIST, EDGES_REACH_OUT, EVERY_ROOT, IMPLICIT_ROOT, LENGTHS_ARE_CUT,
                     LENGTHS_ARE_FLOORED, PERCENTAGES_ARE_CUT, QUEUES_WAIT, ROOTS_GO_AWAY, SCROLLING_ROOT_UNTOLD)


class Margins:
    """The margins of an observer as an engine applies them; `name` is the class for percentages of heights."""

    def __init__(self, model, margins, name):
        self.model, self.margins, self.name = model, margins, name

    def of(self, rectangle):
        """How far they expand a rectangle at the top, right, bottom and left."""
        left, top, right, bottom = rectangle
        return [self._length(amount) if unit == 'px' else self._percentage(side, amount, right - left, bottom - top)
                for side, (unit, amount) in enumerate(self.margins or [('px', 0)] * 4)]

    def _length(self, units):
        floored, is_cut = units // PIXEL * PIXEL, self.model.has(LENGTHS_ARE_CUT)
        if units == floored or not (is_cut or self.model.has(LENGTHS_ARE_FLOORED)) or not self.model.differs('margin-of-part-pixels'):
            return units
        return -(-units // PIXEL * PIXEL) if is_cut and units < 0 else floored

    def _percentage(self, side, amount, width, height):
        basis = width
        if side in (0, 2) and height != width and amount and self.model.differs(self.name):
            basis = height
        units, ratio = percentage(amount, basis), self.model.world.pixel_ratio
        # Whole device pixels.
        pixels = in_units(abs(units) * ratio // (PIXEL * ONE), ratio) * (1 if units > 0 else -1)
        return pixels if pixels != units and self.model.has(PERCENTAGES_ARE_CUT) and self.model.differs('margin-of-part-pixels') else units


def grown(rectangle, by):
    return rectangle[0] - by[3], rectangle[1] - by[0], rectangle[2] + by[1], rectangle[3] + by[2]


def is_crossed(rectangle):
    return rectangle[2] < rectangle[0] or rectangle[3] < rectangle[1]


def uncrossed(model, rectangle):
    """The rectangle without a negative size, if the engine has none."""
    if not is_crossed(rectangle) or not model.differs('crossed-root') or model.has(CROSSED_IS_TURNED):
        return rectangle
    left, top, right, bottom = rectangle
    return left, top, max(left, right), max(top, bottom)


class EngineRoot(intersection.RootRectangle):
    """A root rectangle with an engine's margins; `told` is the one that entries report."""

    def __init__(self, model, observer):
        super().__init__(model.world, observer)
        if self.box == 'padding box' and any(model.world.layout.edges(self.thing)[2]) and model.differs('root-at-content-box'):
            self.own = grown(self.own, [-side for side in model.world.layout.edges(self.thing)[2]])
            self.rectangle = self.own
        margins = Margins(model, observer.margins, 'margin-percentages')
        if model.has(SCROLLING_ROOT_UNTOLD):
            told = grown(self.own, margins.of(self.own))
            moved = grown(told, self._by_scroll_margins(model, observer, told))
        else:
            # If every root is expanded, percentages of the root margin refer to the rectangle expanded by the scroll margin.
            more = self._by_scroll_margins(model, observer, self.own)
            by = margins.of(grown(self.own, more) if model.has(EVERY_ROOT) else self.own)
            told = moved = grown(grown(self.own, more), by)
        self.turned = is_crossed(told) and model.has(CROSSED_IS_TURNED) and model.differs('crossed-root')
        self.rectangle, self.told = uncrossed(model, moved), uncrossed(model, told)

    def _by_scroll_margins(self, model, observer, rectangle):
        root = observer.root
        is_moved = (model.has(EVERY_ROOT) or root is None and model.has(IMPLICIT_ROOT) or model.has(SCROLLING_ROOT_UNTOLD) and (
            root is None or isinstance(root, Document) or model.world.layout.scrolls(root)))
        by = Margins(model, observer.scroll_margins, 'scroll-margin-percentages').of(rectangle)
        return by if is_moved and any(by) and self.box != 'no box' and model.differs('scroll-margin-of-root') else [0] * 4


class Crossings:
    """A mixin of Model."""

    def observers_of(self, document):
        """The observers that are updated with a document."""
        return [observer for observer in self.world.intersection_observers if self.looks_at(document, observer)]

    def looks_at(self, document, observer):
        root = observer.root
        where = self.world.top if root is None else root if isinstance(root, Document) else tree_document(root)
        mine = observer.document is document
        stands = root.document if where is None else where
        if self.has('told-by-own-document') and (mine or stands is document):
            if mine != (stands is document):
                self.differs('told-by-own-document')
            return mine and (where is not None or self.differs('root-removed'))
        if where is None and root.document is document:
            late = [registration for registration in observer.registrations.values() if registration in self.observed_late]
            return bool(late or not self.is_root_away(observer)) and self.differs('root-removed')
        return where is document

    def is_root_away(self, observer):
        """Whether a root is in no tree and was adopted by another document after its removal, which may count as belonging to none."""
        root = observer.root
        return (isinstance(root, Element) and tree_document(root) is None and self.put_in.get(root, root.document) is not root.document
                and self.has(ROOTS_GO_AWAY))

    def intersections(self, document, known=()):
        """Updates a document's observers; `known` has entries that were found before, by registration."""
        if self.waits_unshown(document):
            return
        for observer in self.observers_of(document):
            for registration, entry in self.found(observer, known):
                if (registration.index, registration.meets) != (entry.index, entry.meets):
                    observer.queue.append(entry)
                    self.note_queued(observer, entry)
                registration.index, registration.meets = entry.index, entry.meets
                self.observed_late.discard(registration)

    def note_queued(self, observer, entry):
        """Notes when a document got its first entry in this update. Each document in turn finds those of observers with a root in it, and
        then, for observers without a root, those of its elements."""
        where = entry.target.document if observer.root is None else getattr(observer.root, 'document', observer.root)
        order = self.documents_in_order()
        stage = (order.index(where) if where in order else len(order), observer.root is None)
        self.queued_at[observer.document] = min(stage, self.queued_at.get(observer.document, stage))

    def found(self, observer, known=()):
        """(registration, entry) for each target that is updated."""
        if observer.document.state is not ACTIVE and self.has('entries-of-dead-document'):
            return
        root = EngineRoot(self, observer)
        for registration in observer.registrations.values():
            if not self.passes_over(observer, registration):
                yield registration, known[registration] if registration in known else self.find(observer, root, registration)

    def found_in(self, document):
        """What the observers of a document find now, by registration."""
        return {registration: entry for observer in self.observers_of(document) for registration, entry in self.found(observer)}

    def tells_in_update(self):
        """Whether entries are delivered within the update; by the rules, waiting tasks would come before them."""
        if not self.has('told-in-the-update') or self.world.tasks and not self.differs('entries-before-tasks'):
            return False
        return self.differs('told-in-the-update')

    def crossings_by_turns(self, documents):
        """Updates one document after another and delivers its entries at once. A document that a callback has changed, so that it needs
        layout, is left for the next update; if something around a document has changed, the layout before the change is used."""
        self.found_before = {document: self.found_in(document) for document in documents}
        self.changed_documents.clear()
        self.broken.clear()
        self.unlaid.clear()
        for document in documents:
            if document.state is not ACTIVE or document in self.changed_documents:
                continue
            self.intersections(document, self.found_before[document] if self.is_changed_around(document) else ())
            self.tell_all([observer for observer in self.observers_of(document) if observer.queue], self.has(DEAD_ROOTS_OF_A_LIST))
        self.found_before = {}

    def find_again(self):
        """A callback has caused layout: for documents that no longer need layout, what their observers find is computed again."""
        for document in self.found_before:
            if document.state is ACTIVE and document not in self.changed_documents and not self.is_changed_around(document):
                self.found_before[document] = self.found_in(document)

    def is_changed_around(self, document):
        while document.frame is not None:
            document = document.frame.document
            if document in self.changed_documents:
                return True
        return False

    def passes_over(self, observer, registration):
        """Whether a target is skipped: its observer has no root, and it is in no Active document and not in its last one; or its observer's
        root is away, unless it was observed since."""
        if self.is_root_away(observer) and registration not in self.observed_late:
            return True
        target = registration.target
        where = tree_document(target)
        if observer.root is not None or (where is not None and where.state is ACTIVE):
            return False
        moved = target.document.state is not ACTIVE or self.put_in.get(target, target.document) is not target.document
        return moved and self.differs('target-of-dead-frame')

    def find(self, observer, root, registration):
        target = registration.target
        if self.hidden_frame_around(observer, target):
            entry = self.cut_off(root, target)
        else:
            entry = intersection.find(self.world, observer, root, target)
        if entry.clips:
            self.move_clips(observer, entry)
        entry.root = intersection.seen_from(root.origin, root.told)
        if entry.unseen is not None and entry.root != intersection.NOTHING and self.differs('root-rectangle-of-none'):
            entry.root = intersection.NOTHING
        if root.turned and entry.root != intersection.NOTHING:
            left, top, right, bottom = entry.root
            entry.root = (min(left, right), min(top, bottom), max(left, right), max(top, bottom))
        self.move_cut(observer, entry)
        index = entry.index if entry.meets else 0
        if (index > 0) != entry.meets and self.differs('is-intersecting'):
            entry.meets = index > 0
        if self.has('is-intersecting'):
            entry.index = index
        return entry

    def hidden_frame_around(self, observer, target):
        """Whether a target has a box, and a frame on the way to the implicit root has none."""
        document = target.document
        while observer.root is None and document.frame is not None:
            if not self.world.layout.shows(document):
                return self.world.layout.has_box(target)
            document = document.frame.document
        return False

    def cut_off(self, root, target):
        """The entry of such a target: its box, with nothing visible."""
        layout, entry = self.world.layout, intersection.Entry(target, root.rectangle)
        entry.box = intersection.seen_from(layout.origin(target.document), layout.border_rectangle(target))
        entry.whole = intersection.area(entry.box) or 1
        return entry

    def move_clips(self, observer, entry):
        """Expands the clips by the engine's scroll margins."""
        layout, margins = self.world.layout, Margins(self, observer.scroll_margins, 'scroll-margin-percentages')
        for clip in entry.clips[1:-1]:
            own = clip.rectangle if clip.box == 'viewport' else self.own_clip(clip)
            by = margins.of(own) if clip.box == 'viewport' or layout.scrolls(clip.thing) else [0] * 4
            if clip.box == 'viewport':
                moves = any(by) and self.differs('scroll-margin-of-viewports')
            else:
                moves = any(by) and (observer.root is None or not self.differs('scroll-margin-below-a-root'))
            clip.rectangle = uncrossed(self, grown(own, by)) if moves else own
        entry.cut = intersection.NOTHING
        intersection.measure(layout, entry)
        entry.index = intersection.index_of(observer, entry)

    def own_clip(self, clip):
        """The rectangle of an element that clips, which may be its border box: from its corner, in whole pixels, as rounded at its position
        in its containing block."""
        layout, node = self.world.layout, clip.thing
        place, holder = layout.flat_place(node), layout.holder(node)
        if isinstance(holder, Element):
            outer = layout.flat_place(holder)
            place = (place[0] - outer[0], place[1] - outer[1])
        width, height = [whole(place[axis] + side) - whole(place[axis]) for axis, side in enumerate(layout.border_size(node))]
        left, top = layout.border_rectangle(node)[:2]
        mine = (left, top, left + width, top + height)
        return mine if mine != clip.own and self.differs('clips-of-border-boxes') else clip.own

    def move_cut(self, observer, entry):
        """Frames are at whole pixels; for a root outside the frame, the intersection rectangle is moved by what the rounding changed."""
        root, document = observer.root, entry.target.document
        if not entry.meets or document.frame is None or (root is not None and getattr(root, 'document', root) is document):
            return
        if self.has(EDGES_REACH_OUT):
            self.move_edges(observer, entry)
            return
        corner = self.world.layout.frame_corner(document)
        moved = [rounded - place for rounded, place in zip(self.world.layout.whole_place(corner), corner)]
        if moved != [0, 0] and self.differs('cut-in-a-frame'):
            left, top, right, bottom = entry.cut
            entry.cut = (left + moved[0], top + moved[1], right + moved[0], bottom + moved[1])

    def move_edges(self, observer, entry):
        """When an intersection rectangle is mapped out of a frame, its left and top edges are moved outwards by the fractions of a pixel in
        the frame's position; in the end, what is outside the target's box doesn't count."""
        layout, cut, box = self.world.layout, list(entry.clips[0].rectangle), entry.clips[0].rectangle
        for clip in entry.clips[1:]:
            left, top, right, bottom = clip.rectangle
            cut = [max(cut[0], left), max(cut[1], top), min(cut[2], right), min(cut[3], bottom)]
            if clip.box == 'viewport' and clip is not entry.clips[-1]:
                corner = layout.frame_corner(clip.thing)
                cut = [cut[0] - corner[0] % PIXEL, cut[1] - corner[1] % PIXEL] + cut[2:]
        cut = [max(cut[0], box[0]), max(cut[1], box[1])] + cut[2:]
        moved = intersection.seen_from(layout.origin(entry.target.document), cut)
        if moved != entry.cut and self.differs('cut-in-a-frame'):
            entry.cut = moved
            if intersection.area(box):
                entry.part = intersection.area(moved)
            entry.index = intersection.index_of(observer, entry)

    # --- tasks --------------------------------------------------------------------------------------------------------------

    def run_tasks(self):
        world = self.world
        notified = False
        posted = world.tasks
        world.tasks = []
        if self.has('entries-before-tasks') and posted and any(observer.queue for observer in world.intersection_observers):
            self.differs('entries-before-tasks')
            self.notify()
            notified = True
        for task in posted:
            self._run_task(task)
        if not notified:
            self.notify()
        while world.tasks:
            self._run_task(world.tasks.pop(0))

    def _run_task(self, task):
        self.end_round()
        self.world.posted_held -= 1
        if task.document.state is ACTIVE:
            self.tell('task %s %s' % (task.document.name, task.handler.name))
        self.call(task.document, task.handler)

    def notify(self):
        """Notifies all observers that have entries, in the order of the browser's trace."""
        documents = self.documents_in_order()
        if self.has('told-by-own-document'):
            for document in documents:
                self.tell_all([observer for observer in self.observers_of(document) if observer.queue and not self.waits_untold(observer)])
        else:
            known = [observer for document in documents for observer in self.observers_of(document) if observer.queue]
            self.tell_all(known + [observer for observer in self.world.intersection_observers if observer.queue and observer not in known])
        self.queued_at = {}
        for observer in self.world.intersection_observers:
            if observer.document.state is not ACTIVE and not self.has('entries-of-dead-document'):
                observer.queue = []

    def waits_untold(self, observer):
        """Whether an observer is in no document's list because it has no targets any more; its entries stay."""
        return not observer.registrations and self.has(QUEUES_WAIT) and self.differs('queue-after-unobserve')

    def tell_all(self, waiting, also_of_dead_roots=False):
        begun, self.telling = set(), None
        while waiting:
            # A document's observers are notified together, even if it ends in the meantime.
            chosen = next((observer for observer in waiting if observer.document in begun and observer.document.state is not ACTIVE), None)
            chosen = chosen or self.next_of(waiting)
            waiting.remove(chosen)
            self.telling = chosen.document
            if self.is_told(chosen, also_of_dead_roots):
                entries, chosen.queue = chosen.queue, []
                stands = chosen.document.state is ACTIVE
                self.tell_entries(chosen, entries, begun)
                begun |= {chosen.document} if stands else set()

    def next_of(self, waiting):
        """The observer that is notified next: if the order is arbitrary, by the browser's trace."""
        if not self.has('observers-in-any-order'):
            return waiting[0]
        words = self.expected().split()
        if self.round is not None and words[:1] == ['round']:
            words = self.expected(1).split()
        # Those of one document are told in any order, and one document after the other: first the one that got an entry first.
        first = min([self.queued_at.get(observer.document, ()) for observer in waiting])
        grouped = ([observer for observer in waiting if observer.document is self.telling]
                   or [observer for observer in waiting if self.queued_at.get(observer.document, ()) == first])
        chosen = next((observer for observer in grouped if words[:1] == ['intersect'] and observer.name == words[1]), grouped[0])
        if chosen is not waiting[0]:
            self.differs('observers-in-any-order')
        return chosen

    def tell_entries(self, observer, entries, begun):
        """Delivers entries to an observer; `begun` has the documents of which an observer has been notified already."""
        if observer.document.state is not ACTIVE:
            if entries and observer.document not in begun and self.differs('entries-of-dead-document'):
                observer.queue = entries + observer.queue
        elif entries:
            self.end_round()
            entries = self._now(self._as_told(observer, entries, 0))
            lines = [(trace.intersect_line(observer, entry), None) for entry in entries]
            self.call(observer.document, observer.handler, entries, lines)

    def _now(self, entries):
        """Sets the time of entries to the clock's, as the tool does."""
        for entry in entries:
            entry.time = self.world.clock
        return entries

    def is_told(self, observer, also_of_dead_roots):
        """Whether an observer gets its entries, although its root may be gone by then."""
        if self.has('told-by-own-document'):
            return True
        root = observer.root
        document = root if isinstance(root, Document) else self.world.top if root is None else tree_document(root)
        if document is None:
            return self.differs('root-removed')
        return document.state is ACTIVE or (also_of_dead_roots or not self.has(DEAD_ROOTS_OF_A_LIST)) and self.differs('told-of-dead-root')

    def _as_told(self, observer, entries, after):
        """Entries in the order of the browser's trace: those for an observer without a root come in any order."""
        if not self.has('observers-in-any-order') or observer.root is not None:
            return list(entries)
        left, ordered = list(entries), []
        for place in range(len(entries)):
            words = self.expected(after + place).split()
            chosen = next((entry for entry in left if words[:1] == ['intersect'] and words[2] == entry.target.name), left[0])
            left.remove(chosen)
            ordered.append(chosen)
        if ordered != list(entries):
            self.differs('observers-in-any-order')
        return ordered
