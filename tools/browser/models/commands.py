"""Commands that an engine runs differently, or that cause layout."""
import re

from reference import trace
from reference.commands import EFFECTS
from reference.media import matches
from reference.refusals import Throw
from reference.world import ACTIVE, Document, Element, preorder, tree_document

from .layout import FIRST_FRAME, ONE, PIXEL, in_units, whole, whole_window
from .rounds import NEVER
from .traits import (BEGIN_IS_THERE, DEAD_READS_THROW, DEVICE_PIXELS_ARE_LAID_OUT, FIRST_USE_COUNTS, FRAMES_BEGIN_AS_THEY_COME,
                     FRAMES_FOLLOW_A_RATIO, FRAMES_IN_TIME, HIDDEN_READS_NOTHING, NOTHING_FOR_DETACHED, QUEUES_WAIT, SCROLLS_ARE_CUT,
                     VIEWPORTS_LAY_OUT, WINDOWS_READ_AT_ONCE)

# A zero without a unit, as a part of a margin.
NO_LENGTH = re.compile(rb'^[-+]?(0+(\.0+)?|\.0+)([eE][-+]?[0-9]+)?$')
SCROLLING = ('hidden', 'scroll', 'auto')
# The property with which the tool sets each field when it creates an element: setting it with another one is a change, whatever the value.
GIVEN = dict([(name, name) for name in ('display', 'box-sizing', 'min-width', 'min-height')] + [
    (edge + side, edge) for edge in ('margin', 'padding') for side in ('-top', '-right', '-bottom', '-left')])


class Commands:
    """A mixin of Model."""

    def do_viewport(self, command, width, height):
        EFFECTS['viewport'](self, command, width, height)
        if self.began:
            self.learns(self.world.top, whole_window((width, height)))
            if self.has(VIEWPORTS_LAY_OUT):
                self.lay_out_all()
            else:
                self.lay_out(self.world.top)

    def do_ratio(self, command, hundredths):
        old = self.world.pixel_ratio
        changes, is_less = hundredths != old, hundredths < old
        EFFECTS['ratio'](self, command, hundredths)
        if changes:
            self.world.changed()
        if changes and self.began and self.differs('ratio-resize-event'):
            self.rescaled = {document for document in self.documents_in_order() if document.frame is None or (
                document in self.known and self.world.layout.shows(document))}
            self.resized |= self.rescaled
            self.change_for_a_moment(old, hundredths)
            if self.has(FRAMES_FOLLOW_A_RATIO):
                # A lower ratio makes frames larger, until the page around them is laid out.
                self.lowered = self.rescaled - {self.world.top} if is_less else set()
            if self.has('ratio-scroll-event'):
                self.lay_out_all()
                self.scroll_by_ratio()

    def change_for_a_moment(self, old, new):
        """Until the tool has set its size again, the window has as many device pixels as before: what a query list is then is forgotten, but
        not that it has changed."""
        if not self.has('ratio-change-event'):
            return
        top, size = self.world.top, whole_window(self.world.viewport_size)
        between = tuple([in_units(-(-side * old // (PIXEL * ONE)), new) for side in size])
        for queries in self.world.query_lists:
            if queries.document is top and matches(queries.queries, between) != matches(queries.queries, size) and self.differs('ratio-change-event'):
                self.changed_for_a_moment.add(queries)
        self.evaluate(top, between)
        self.evaluate(top, size)

    def scroll_by_ratio(self):
        """What is scrolled is scrolled again, to whole device pixels."""
        for document in self.documents_in_order():
            for thing in list(self.anchors.scrolled_in(document)):
                self.differs('ratio-scroll-event')
                thing.scroll = self._whole_position(*thing.scroll)
                if thing not in document.pending_scrolls:
                    document.pending_scrolls.append(thing)
        self.world.scrolled()

    def kept_size(self, document):
        """The viewport's size of a document whose frame has no box."""
        return (0, 0) if self.has(HIDDEN_READS_NOTHING) else self.known.get(document, (0, 0))

    def do_read(self, command, thing):
        if isinstance(thing, Document) and thing.state is not ACTIVE and self.has(DEAD_READS_THROW) and self.differs('read-of-dead-frame'):
            raise Throw('NS_ERROR_UNEXPECTED', command.operands[0], '')
        if isinstance(thing, Element) and self.reads_as_laid(thing):
            return
        self.lay_out_for_reading(thing)
        layout = self.world.layout
        if isinstance(thing, Document) and self.world.pixel_ratio != ONE:
            # A window gives its size in whole pixels: that of a page rounded, that of a frame maybe truncated.
            is_cut = thing.frame is not None and self.has(DEVICE_PIXELS_ARE_LAID_OUT)
            sides = [side // PIXEL * PIXEL if is_cut else whole(side) for side in layout.viewport(thing)]
            units = (0, 0) + tuple(sides) + layout.document_offset(thing)
            self.tell(trace.read_line(thing.name, units))
        else:
            EFFECTS['read'](self, command, thing)

    def reads_as_laid(self, node):
        """Whether an out-of-flow box, or one in it, is read where it was at the last layout; if so, writes the line."""
        if not self.stands_as_laid(node):
            return False
        layout = self.world.layout
        shift = [was - now for was, now in zip(self.laid_places[node], layout.flat_place(node))]
        if shift == [0, 0] or not self.differs('static-place-read'):
            return False
        offset = layout.element_offset(node) if layout.scrolls(node) else (0, 0)
        place = tuple([now + by for now, by in zip(layout.place(node), shift)])
        self.tell(trace.read_line(node.name, place + layout.border_size(node) + offset))
        return True

    def stands_as_laid(self, node):
        """Whether a read causes no layout: nothing has changed in the out-of-flow box around it, nor around or before the element there."""
        layout = self.world.layout
        if not self.has('static-place-read') or node not in self.laid_places or not layout.has_box(node) or None in self.touched:
            return False
        while node not in self.touched and node.root_of is None:
            if not layout.in_flow(node):
                holder = layout.holder(node)
                if not isinstance(holder, Element):
                    return True
                node = holder
            elif layout.position(node) == 'relative' or any(inner in self.touched for before in self.before(node) for inner in preorder(before)):
                return False
            else:
                node = node.parent
        return False

    @staticmethod
    def before(node):
        return node.parent.children[:node.parent.children.index(node)]

    def lay_out_for_reading(self, thing):
        """A window that isn't scrolled may give what is known; then only the documents around its frame are laid out."""
        if not isinstance(thing, Document):
            self.lay_out_around(thing)
        elif thing.scroll != (0, 0) or not self.has(WINDOWS_READ_AT_ONCE):
            self.lay_out(thing)
        elif thing.frame is not None:
            self.lay_out(thing.frame.document, thing)

    def lay_out_around(self, node):
        """An engine may not lay out anything for an element that is in no tree, or for an out-of-flow one."""
        if (tree_document(node) is not None or not self.has(NOTHING_FOR_DETACHED)) and not self.stands_as_laid(node):
            self.lay_out(node.document)

    def holds(self, command):
        if command.condition in ('wider', 'taller'):
            self.lay_out_around(self.look_up_all(command)[0])
        return super().holds(command)

    def do_scroll(self, command, thing, left, top):
        if left or top or not self.is_begin_there(thing):
            self.lay_out_for_scrolling(thing)
        self.scroll_anew('scroll', command, thing, left, top)

    def is_begin_there(self, thing):
        """Whether scrolling to the beginning causes no layout: for a window, or for what is already there."""
        if self.has(BEGIN_IS_THERE):
            return thing.scroll == (0, 0) and (isinstance(thing, Document) or thing.root_of is None)
        return isinstance(thing, Document)

    def do_scroll_by(self, command, thing, left, top):
        self.lay_out_for_scrolling(thing)
        self.scroll_anew('scroll-by', command, thing, left, top)

    def scroll_anew(self, name, command, thing, left, top):
        scrolled = thing.root_of if isinstance(thing, Element) and thing.root_of is not None else thing
        before = scrolled.scroll
        EFFECTS[name](self, command, thing, *self._whole_position(left, top))
        if scrolled.scroll != before:
            # Only one event is fired for it.
            self.late_scrolls = [late for late in self.late_scrolls if late[0] is not scrolled]
            self.view_changes()
        self.anchor_anew(scrolled)

    def lay_out_for_scrolling(self, thing):
        if isinstance(thing, Document):
            self.lay_out(thing)
        elif tree_document(thing) is not None or not self.has(NOTHING_FOR_DETACHED):
            self.lay_out(thing.document)

    def anchor_anew(self, thing):
        where = thing if isinstance(thing, Document) else tree_document(thing)
        if where is not None and where.state is ACTIVE:
            self.anchors.scrolls(thing)

    def do_set(self, command, node, property_, declaration):
        style, had_box, was_dirty = dict(node.style), self.has_box_here(node), self.is_dirty
        EFFECTS['set'](self, command, node, property_, declaration)
        # The same value again isn't a change.
        self.is_dirty = was_dirty or node.style != style
        self.anchors.changes(node, property_)
        self.changed_in(node.document)
        given = self.given.setdefault(node, dict(GIVEN))
        if node.style != style or any(given.get(field) != property_ for field in declaration[0]):
            self.changed_documents.add(tree_document(node))
        given.update({field: property_ for field in declaration[0]})
        if node.style != style:
            self.touched.add(node)
            if had_box or self.has_box_here(node):
                self.unlaid.add(node.document)
        if 'absolute' in (style['position'], node.style['position']) and style['position'] != node.style['position']:
            # An element that becomes absolute, or ceases to be, causes layout of everything.
            self.touched.add(None)
        if property_ == 'overflow' and (style['overflow'] in SCROLLING) != (node.style['overflow'] in SCROLLING):
            self.made_anew(node)
            if node.style['overflow'] in SCROLLING:
                self.new_scrollers.add(node)

    def made_anew(self, node):
        """An element becomes a scroll container or ceases to be one: its box and those in it are created anew."""
        inner = [other.framed for other in preorder(node) if other.framed is not None]
        if inner and node.root_of is None and self.has('frame-made-anew'):
            self.to_be_made.setdefault(node.document, set()).update(inner)

    def do_grow(self, command, node, property_, by):
        style, was_dirty = dict(node.style), self.is_dirty
        EFFECTS['grow'](self, command, node, property_, by)
        self.is_dirty = was_dirty or node.style != style
        self.anchors.changes(node, property_)
        self.changed_in(node.document)
        self.changed_documents.add(tree_document(node))
        self.touched.add(node)
        if node.style != style and self.has_box_here(node):
            self.unlaid.add(node.document)

    def do_load(self, command, node, width, height):
        EFFECTS['load'](self, command, node, width, height)
        self.changed_documents.add(tree_document(node))
        self.touched.add(node)
        if self.has_box_here(node):
            self.unlaid.add(node.document)

    def has_box_here(self, node):
        """Whether an element has a box, if the engine needs to know."""
        return self.has('told-in-the-update') and self.world.layout.has_box(node)

    def changed_in(self, document):
        if document in self.hidden and self.differs('scroll-of-hidden-frame'):
            self.hidden[document] = True

    def _whole_position(self, left, top):
        """A position in whole device pixels."""
        ratio = self.world.pixel_ratio
        pixels = [units * ratio // (PIXEL * ONE) if self.has(SCROLLS_ARE_CUT) else (units * ratio + PIXEL * ONE // 2) // (PIXEL * ONE)
                  for units in (left, top)]
        rounded = tuple([in_units(number, ratio) for number in pixels])
        return rounded if rounded != (left, top) and self.differs('scroll-of-part-pixels') else (left, top)

    def do_ro(self, command, name, document, handler):
        EFFECTS['ro'](self, command, name, document, handler)
        self.all_resize_observers.append(self.world.names[name])

    def do_ro_observe(self, command, observer, node, box):
        old = observer.observations.get(node)
        if old is not None and old.box == box and self.differs('observe-again'):
            self._tool_observes(observer, node)
            return
        if old is not None and old in observer.active and self.differs('unobserve-in-delivery'):
            observer.active.remove(old)
        used, is_first = observer.document.resize_observers, observer not in self.tool_saw
        if (not observer.observations and used[-1] is not observer and (is_first or not self.has(FIRST_USE_COUNTS))
                and self.differs('resize-observers-by-use')):
            used.remove(observer)
            used.append(observer)
        EFFECTS['ro-observe'](self, command, observer, node, box)
        observation = observer.observations[node]
        if self.has('first-size'):
            observation.last_reported = NEVER
        self._tool_observes(observer, node)

    def _tool_observes(self, observer, node):
        """The tool forgets the target's reported size, and puts the target last."""
        seen = self.tool_saw.setdefault(observer, {})
        seen.pop(node, None)
        seen[node] = None

    def do_ro_unobserve(self, command, observer, node):
        old = observer.observations.get(node)
        if old is not None and old in observer.active and self.differs('unobserve-in-delivery'):
            observer.active.remove(old)
        EFFECTS['ro-unobserve'](self, command, observer, node)
        self.tool_saw.get(observer, {}).pop(node, None)

    def do_ro_disconnect(self, command, observer):
        EFFECTS['ro-disconnect'](self, command, observer)
        observer.skipped = False
        if observer in self.tool_saw:
            self.tool_saw[observer] = {}

    def do_io(self, command, name, document, handler, root, margin, scroll_margin, thresholds):
        margins = [text and b' '.join([NO_LENGTH.sub(b'0px', word) for word in text.split(b' ')]) for text in (margin, scroll_margin)]
        if margins != [margin, scroll_margin] and self.differs('zero-without-unit'):
            margin, scroll_margin = margins
        EFFECTS['io'](self, command, name, document, handler, root, margin, scroll_margin, thresholds)

    def do_io_observe(self, command, observer, node):
        if not observer.registrations:
            self.comes_last(observer)
        known = observer.registrations.get(node)
        EFFECTS['io-observe'](self, command, observer, node)
        if known is None and self.is_root_away(observer):
            self.observed_late.add(observer.registrations[node])

    def comes_last(self, observer):
        """An intersection observer enters a document's list, with its first target or when its root is adopted."""
        known = self.world.intersection_observers
        if known[-1] is not observer and self.differs('intersection-observers-by-use'):
            known.remove(observer)
            known.append(observer)

    def do_io_unobserve(self, command, observer, node):
        kept = [entry for entry in observer.queue if entry.target is not node]
        drops = node in observer.registrations and kept != observer.queue and not self.has(QUEUES_WAIT)
        if drops and self.differs('queue-after-unobserve'):
            observer.queue = kept
        EFFECTS['io-unobserve'](self, command, observer, node)

    def do_io_disconnect(self, command, observer):
        if observer.queue and not self.has(QUEUES_WAIT) and self.differs('queue-after-unobserve'):
            observer.queue = [entry for entry in observer.queue if entry.target not in observer.registrations]
        EFFECTS['io-disconnect'](self, command, observer)

    def do_io_take(self, command, observer):
        observer.queue = self._now(self._as_told(observer, observer.queue, 1))
        EFFECTS['io-take'](self, command, observer)

    def do_media(self, command, name, document, queries):
        EFFECTS['media'](self, command, name, document, queries)
        if self.has(FRAMES_IN_TIME):
            self.world.names[name].state = matches(queries, self.known.get(document, (0, 0)))
        elif self.has(FRAMES_BEGIN_AS_THEY_COME) and document.frame is not None and document not in self.known:
            self.world.names[name].state = matches(queries, self.frame_came.get(document, FIRST_FRAME))
        self.states[self.world.names[name]] = matches(queries, self.rules_viewport(document))

    def do_raf(self, command, document, key, handler):
        EFFECTS['raf'](self, command, document, key, handler)
        self.asked.add(document)

    def do_listen(self, command, listened, event, handler):
        before = len(self.world.listeners.get(listened, ()))
        EFFECTS['listen'](self, command, listened, event, handler)
        held = self.world.listeners[listened]
        if len(held) > before:
            thing = listened[0]
            held[-1].realm = thing if isinstance(thing, Document) else thing.document

    def dispatch(self, listened, event):
        thing = listened[0]
        document = thing if isinstance(thing, Document) else thing.document
        listeners = self.world.listeners
        for listener in [known for known in listeners.get(listened, ()) if known.event == event]:
            if listener in listeners.get(listened, ()):
                realm = document
                if (listener.realm.state is ACTIVE) != (document.state is ACTIVE) and self.differs('listener-of-adopted-element'):
                    realm = listener.realm
                self.call(realm, listener.handler)
