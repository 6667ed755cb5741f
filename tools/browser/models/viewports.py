"""The sizes that documents are given, what a layout does to scroll offsets, and the first steps of an update."""
from reference import intersection, update
from reference.layout import BORDER, CONTENT, DEVICE
from reference.media import matches
from reference.world import ACTIVE, DEAD, Element, IntersectionObserver, preorder, tree_document

from .layout import NO_SIZES, Sizes, whole_window
from .traits import (CALLBACKS_OF_THE_STEP, EMPTY_PAGES_LAY_OUT, EVENTS_GO_WITH_BOXES, FRAMES_BEGIN_AS_THEY_COME, FRAMES_IN_TIME, FRAMES_LAY_OUT, FRAMES_WAIT,
                     LATE_SCROLLS, PLACED_AS_ROUNDS_BEGIN, QUERIES_IN_UPDATE)

# An observer of the window itself, for whether a target is visible in it.
WINDOW = IntersectionObserver('-', None, None, None, None, [('px', 0)] * 4, None, [0])


def intersection_size(rectangle):
    return rectangle[2] - rectangle[0], rectangle[3] - rectangle[1]


class Viewports:
    """A mixin of Model."""

    def inserted(self, node):
        self.changed_documents.add(tree_document(node))
        if self.has_box_here(node):
            self.unlaid.add(node.document)
        self.touched |= {node, node.parent}
        where = tree_document(node)
        for inner in preorder(node):
            self.came[inner] = self.updates
            if where is not None and where.state is ACTIVE:
                self.put_in[inner] = where
            document = inner.framed
            if document is None:
                continue
            if document.state is not ACTIVE:
                if self.has(EMPTY_PAGES_LAY_OUT):
                    self.refilled.append(inner)
            elif document not in self.insertions:
                self.insertions[document] = len(self.insertions)
                self.new_documents.append(document)
                if self.has(FRAMES_BEGIN_AS_THEY_COME) and self.world.layout.shows(document):
                    self.frame_came[document] = self.world.layout.frame_size(document)
                if self.has(FRAMES_IN_TIME) and where in self.ever_laid and document.root is None:
                    self.known[document] = (0, 0)
        if self.has(FRAMES_LAY_OUT) and tree_document(node) in self.known and any(inner.framed is not None for inner in preorder(node)):
            self.lay_out(tree_document(node))

    def removed(self, node, where):
        """Boxes are removed from a document; when they come back, nothing is scrolled."""
        self.touched.add(node)
        for inner in preorder(node):
            if where is not None and where.state is not ACTIVE and self.came.get(inner) != self.updates:
                self.put_in[inner] = where
            if inner in self.sizes:
                self.sizes[inner] = NO_SIZES
            self.anchors.removed(inner)
            if inner.scroll != (0, 0) and self.differs('offset-of-moved-box'):
                inner.scroll = (0, 0)
            if self.has(EVENTS_GO_WITH_BOXES):
                self.forget_scroll(inner, where)
        for other in self.sizes:
            if other.document.state is not ACTIVE:
                self.sizes[other] = NO_SIZES
        self.documents_end()

    def forget_scroll(self, thing, where):
        """The pending scroll event is dropped with the box."""
        if where is not None and thing in where.pending_scrolls and self.differs('offset-of-moved-box'):
            where.pending_scrolls.remove(thing)

    def uprooted(self, document):
        """A document without its root element is no longer scrolled."""
        if self.has(EVENTS_GO_WITH_BOXES) and document.state is ACTIVE:
            self.forget_scroll(document, document)
            if document.scroll != (0, 0) and self.differs('offset-of-moved-box'):
                document.scroll = (0, 0)
                self.world.scrolled()

    def documents_end(self):
        """Notes documents that have ended; observers with a root in one may lose their targets."""
        ended = {document for document in self.world.documents if document.state is DEAD} - self.ended
        self.ended |= ended
        for observer in self.world.intersection_observers:
            home = getattr(observer.root, 'document', observer.root)
            if home in ended and observer.registrations and self.differs('disconnected-as-root-ends'):
                observer.registrations.clear()

    def documents_in_order(self):
        """The Active documents in the engine's order."""
        by_tree = self.world.active_documents()
        if not self.has('frame-order'):
            return by_tree
        children = {}
        for document in by_tree[1:]:
            children.setdefault(document.frame.document, []).append(document)
        found, waiting = [], [self.world.top]
        while waiting:
            document = waiting.pop()
            found.append(document)
            waiting.extend(sorted(children.get(document, ()), key=self.place_of, reverse=True))
        if found != by_tree:
            self.differs('frame-order')
        return found

    def place_of(self, document):
        return self.order[document.name] if self.order else self.insertions[document]

    # --- layout -------------------------------------------------------------------------------------------------------------

    def learns(self, document, size):
        """Gives a document the size of its viewport."""
        old = self.known.get(document)
        if (old or (0, 0)) == size:
            return
        self.known[document] = size
        if old is not None or not self.has(FRAMES_IN_TIME):
            self.resized.add(document)
        if document.frame is not None or not self.has(QUERIES_IN_UPDATE):
            self.evaluate(document, size)

    def evaluate(self, document, size):
        if document.root is None and self.has('queries-of-empty-page'):
            if any(queries.document is document and matches(queries.queries, size) != queries.state for queries in self.world.query_lists):
                self.noticed.add('queries-of-empty-page')
            return
        for queries in self.world.query_lists:
            if queries.document is document:
                state = matches(queries.queries, size)
                if state != queries.state:
                    queries.state = state
                    waiting = self.changed_queries.setdefault(document, [])
                    if queries not in waiting:
                        waiting.append(queries)

    def lay_out(self, document, also=None):
        """Lays out a document and those around it, beginning with the outermost; `also` is another one that is given its size."""
        if document.state is not ACTIVE:
            return
        self.is_dirty = False
        chain = [document]
        while chain[-1].frame is not None:
            chain.append(chain[-1].frame.document)
        waiting = set(self.changed_documents)
        for outer in reversed(chain):
            self._laid_out(outer, chain + [also] if self.has(FRAMES_WAIT) else None)
        if self.changed_documents != waiting:
            self.find_again()

    def place_all(self):
        """Remembers the positions of the targets' boxes as a round begins."""
        if self.has(PLACED_AS_ROUNDS_BEGIN):
            layout = self.world.layout
            targets = {node for observer in self.all_resize_observers for node in observer.observations}
            self.placed = {node: layout.flat_place(node) for node in targets if layout.has_box(node)}

    def lay_out_all(self):
        self.is_dirty = False
        for document in self.documents_in_order():
            self._laid_out(document)

    def _laid_out(self, document, told=None):
        """`told` are the documents that are given the size of their frames, or None for all."""
        layout = self.world.layout
        if document in self.changed_documents and self.has(FRAMES_IN_TIME):
            if document in self.unlaid or document in self.broken:
                self.changed_documents -= self.laid_inside(document)
            self.view_changes()
            self.new_scrollers = {node for node in self.new_scrollers if node.document is not document}
        self.ever_laid.add(document)
        self.places_in(document)
        self.changed_documents.discard(document)
        self.broken.discard(document)
        self.unlaid.discard(document)
        if document in self.emptied:
            self.emptied.discard(document)
            self.sized_anew(document)
            self.evaluate(document, self.known[document])
        for inner in self.to_be_made.pop(document, ()):
            if inner.state is ACTIVE and inner in self.known and layout.shows(inner) and self.differs('frame-made-anew'):
                self.sized_anew(inner)
                if told is None or inner not in told:
                    self.emptied.add(inner)
        for inner in list(self.insertions):
            if inner.state is ACTIVE and inner.frame.document is document:
                self.see_frame(inner, told is None or inner in told)
            self.hide_or_show(inner)
        for node in self.sizes:
            if node.document is document:
                self.sizes[node] = self.size_now(node)
        if self.has('scroll-anchoring'):
            self.move_offsets(document)
        self.cut_offsets(document)
        self.anchors.settle(document)

    def places_in(self, document):
        """Remembers the positions of out-of-flow boxes and of those in them."""
        if self.has('static-place-read'):
            layout = self.world.layout
            self.touched = {node for node in self.touched if node is not None and node.document is not document}
            self.laid_places.update({node: layout.flat_place(node) for node in layout._boxes_of(document) if self.around_out_of_flow(node)})

    def around_out_of_flow(self, node):
        """The outermost box on an element's containing block chain, the element included, or None if that is the root element."""
        holder, outer = self.world.layout.holder(node), node
        while isinstance(holder, Element):
            holder, outer = self.world.layout.holder(holder), holder
        return outer if outer.root_of is None else None

    def laid_inside(self, document):
        """The documents that are laid out with the one around them: their frames have another size, or a box was removed from them. If
        something was only set or inserted, styles have to be computed first, which is postponed."""
        found, layout = set(), self.world.layout
        for inner in self.insertions:
            if inner.state is ACTIVE and inner.frame.document is document:
                if inner in self.broken or layout.shows(inner) and self.known.get(inner) != layout.frame_size(inner):
                    found |= {inner} | self.laid_inside(inner)
        return found

    def see_frame(self, document, is_told):
        """Gives a document the size of its frame, if that has a box when the page around it is laid out."""
        if self.world.layout.shows(document):
            self.unshown.discard(document)
            if is_told:
                self.learns(document, self.world.layout.frame_size(document))
        else:
            self.unshown.add(document)

    def waits_unshown(self, document):
        """Whether a document waits because its frame, or one around it, has no box."""
        while document.frame is not None:
            if document in self.unshown:
                return self.differs('hidden-document-waits')
            document = document.frame.document
        return False

    def sized_anew(self, document):
        """A document gets a new size, since the box of its frame was created anew: first none, then its own when it is laid out itself."""
        self.resized.add(document)
        self.anew.add(document)

    def hide_or_show(self, document):
        """A scrolled document gets a scroll event when its frame's box disappears and when it comes back."""
        if document.state is not ACTIVE or not self.has('scroll-of-hidden-frame'):
            return
        shown = self.world.layout.shows(document)
        if not shown and document.scroll != (0, 0) and document not in self.hidden:
            self.differs('scroll-of-hidden-frame')
            self.hidden[document] = False
            self.scrolled_by_layout(document, document)
        elif shown and document in self.hidden:
            if self.hidden.pop(document):
                document.scroll = (0, 0)
            else:
                self.scrolled_by_layout(document, document)

    def move_offsets(self, document):
        for thing, by in list(self.anchors.moved(document)):
            self.met.add('scroll-anchoring')
            thing.scroll = (thing.scroll[0], max(0, thing.scroll[1] + by))
            self.world.scrolled()
            self.scrolled_by_layout(thing, document)

    def scrolled_by_layout(self, thing, document):
        if self.has(LATE_SCROLLS):
            self.late_scrolls.append((thing, document))
        elif thing not in document.pending_scrolls:
            document.pending_scrolls.append(thing)

    def size_now(self, node):
        layout = self.world.layout
        return Sizes(*[layout.size(node, box) for box in (CONTENT, BORDER, DEVICE)], layout.content_corner(node))

    def cut_offsets(self, document):
        """Clamps the stored positions of scroll containers to their ranges."""
        layout = self.world.layout
        if document.scroll != (0, 0) and (document.frame is None or layout.shows(document)):
            self._cut(document, document, layout.document_offset(document))
        if document.root is not None:
            for node in preorder(document.root):
                if node.scroll != (0, 0) and layout.has_box(node) and layout.scrolls(node):
                    self._cut(node, document, layout.element_offset(node))

    def _cut(self, thing, document, offset):
        if offset != thing.scroll and self.differs('stored-offset'):
            thing.scroll = offset
            self.world.scrolled()
            self.scrolled_by_layout(thing, document)

    # --- the first steps of an update --------------------------------------------------------------------------------------

    def has_work(self, document):
        """Whether something is pending in this document as an update begins. The page's own document has a frame callback of the tool."""
        return (document is self.world.top or document in self.resized or document.pending_scrolls or self.changed_queries.get(document)
                or self.world.frame_callbacks.get(document))

    def awake_for_callbacks(self, documents, awake):
        """The documents whose frame callbacks are run in this update: those with something to do as it began, or those with callbacks as
        this step begins. The page's own document has one of the tool."""
        if not self.has(CALLBACKS_OF_THE_STEP):
            return awake
        return {document for document in documents if document is self.world.top or self.world.frame_callbacks.get(document)}

    def runs_frame_callbacks(self, document, awake):
        if not self.world.frame_callbacks.get(document):
            return True
        if self.waits_unshown(document) or document in self.slowed and self.differs('callback-out-of-view'):
            return False
        return document in awake or not self.differs('frame-callback-late')

    def view_changes(self):
        """Notes which documents with requested frame callbacks are out of view when something around them is laid out or scrolled."""
        if not self.has('callback-out-of-view'):
            return
        for document in self.asked:
            if document.state is ACTIVE and self.is_out_of_view(document):
                self.slowed.add(document)
            else:
                self.slowed.discard(document)

    def is_out_of_view(self, document):
        """Whether a document's frame has a box with an area, of which nothing is visible in the window."""
        layout = self.world.layout
        if document.frame is None or 0 in layout.viewport(document) or not layout.shows(document):
            return False
        seen = intersection.find(self.world, WINDOW, intersection.RootRectangle(self.world, WINDOW), document.frame)
        # What has become a scroll container since the last layout doesn't clip yet.
        seen.clips = [clip for clip in seen.clips if clip.thing not in self.new_scrollers]
        seen.cut = intersection.NOTHING
        intersection.measure(layout, seen)
        return 0 in intersection_size(seen.cut)

    def fires_events(self, document, awake):
        """Whether a document fires `scroll` and `change` in this update: not if it had nothing to do as the update began."""
        idle = document not in awake and (document.pending_scrolls or self.changed_queries.get(document))
        return not idle or not self.differs('event-of-idle-document')

    def resize_steps(self, document):
        fires = document in self.resized
        self.note_resize(document, fires)
        self.rescaled.discard(document)
        if fires:
            self.resized.discard(document)
            self.tell('event resize @' + document.name)
            self.dispatch((document, True), 'resize')

    def rules_viewport(self, document):
        layout = self.world.layout
        if document.frame is None:
            return self.world.viewport_size
        return layout.size(document.frame, CONTENT)

    def note_resize(self, document, fires):
        """Notes the class if the rules fire `resize` and the engine doesn't, or the other way round."""
        size = self.rules_viewport(document)
        first, before = document not in self.noted, self.noted.get(document, size)
        changed = before != size
        self.noted[document] = size
        is_anew = document in self.anew and fires
        self.anew.discard(document)
        if fires == changed or is_anew and not first:
            return
        if first:
            self.noticed.add('frame-first-resize' if document.frame else 'first-resize-event')
        elif document in self.rescaled and fires:
            pass
        elif document.frame is None:
            self.noticed.add('resize-back-again' if whole_window(size) == size else 'viewport-of-part-pixels')
        elif changed and (not self.world.layout.shows(document) or self.has(FRAMES_IN_TIME) and before == (0, 0)):
            self.noticed.add('hidden-frame-keeps-size')
        elif self.has(FRAMES_IN_TIME):
            self.noticed.add('frame-of-part-pixels' if changed else 'resize-back-again')
        else:
            self.noticed.add('frame-resize-event')

    def note_changes(self, document, changed):
        """The same for query lists."""
        size = self.rules_viewport(document)
        for queries in self.world.query_lists:
            if queries.document is document:
                state = matches(queries.queries, size)
                fires = state != self.states.get(queries, state)
                self.states[queries] = state
                if queries in self.changed_for_a_moment and queries in changed and not fires:
                    self.noticed.add('ratio-change-event')
                elif fires != (queries in changed) and not (document.root is None and self.has('queries-of-empty-page')):
                    late = 'media-change-missed' if whole_window(size) == size else 'viewport-of-part-pixels'
                    self.noticed.add('media-of-frame' if document.frame else late)
        self.changed_for_a_moment -= set(changed)

    def scroll_steps(self, document):
        update._scroll_steps(self, document)

    def media_steps(self, document):
        if document.frame is None and self.has(QUERIES_IN_UPDATE):
            self.evaluate(document, whole_window(self.world.viewport_size))
        if document in self.emptied:
            self.evaluate(document, (0, 0))
        changed = self.changed_queries.pop(document, [])
        self.note_changes(document, changed)
        for queries in changed:
            if document.state is not ACTIVE:
                return
            self.fire('event change %s %s' % (queries.name, 'true' if queries.state else 'false'), queries, 'change')
