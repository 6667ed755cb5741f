"""The resize loop as an engine implements it, and its rounds as the tool distinguishes them."""
from reference import trace
from reference.world import ACTIVE, DEAD, depth, preorder, tree_document

from .layout import NO_SIZES
from .traits import SIZES_OF_GATHERING

BOTTOM = float('inf')     # a depth that nothing is below
NEVER = (-1, -1)     # the last reported size of a target that hasn't been reported yet


class Round:
    """A round as the tool distinguishes it from the next: see docs/BROWSERS.md, 'Rounds'."""

    def __init__(self, document, waiting):
        self.document, self.waiting = document, waiting
        self.least, self.place = None, -1


class ResizeEntry:
    def __init__(self, target, sizes):
        self.target, self.sizes = target, sizes
        self.corner, self.content, self.border, self.device = sizes.corner, sizes.content, sizes.border, sizes.device


class Rounds:
    """A mixin of Model."""

    def resize_loop(self):
        if self.has('rounds-by-turns'):
            self.rounds_by_turns()
            return
        self.failed.clear()
        documents = self.documents_in_order()
        still = [document for document in documents if document.resize_observers and self.waits_unshown(document)]
        for document in documents:
            least = 0
            while document.state is ACTIVE and least is not None:
                self.lay_out_all()
                least = None if document in still else self.one_round(document, least)

    def rounds_by_turns(self):
        least, delivered = {}, True
        self.failed.clear()
        self.had_turns = set()
        # A listener of an error that leaves something to be laid out causes one more turn.
        while delivered or self.disturbed:
            self.placed, self.disturbed = {}, False
            self.lay_out_all()
            self.size_all()
            self.place_all()
            delivered = False
            for document in self.documents_of_turn():
                # The page itself has a list of observers from its start, a frame only from its first observer on.
                self.had_turns.add(document)
                if document.state is ACTIVE and (document.frame is None or document.resize_observers):
                    reached = self.one_round(document, least.get(document, 0))
                    # A document with nothing to deliver in a turn has no more rounds in this update.
                    least[document] = BOTTOM if reached is None else reached
                    delivered = delivered or reached is not None
        if len(least) > 1:
            self.differs('rounds-by-turns')

    def documents_of_turn(self):
        """The documents in order, as they are after the callbacks of those before: one that these have inserted has its turn too."""
        order, place = self.documents_in_order(), 0
        while place < len(order):
            document = order[place]
            yield document
            now = self.documents_in_order()
            if document in now:
                order, place = now, now.index(document)
            place += 1

    def size_all(self):
        """Remembers the sizes of all boxes: the documents of one turn are gathered from one layout."""
        for document in self.documents_in_order():
            # A page that has come into the tree in this update hasn't been laid out yet.
            is_new = document in self.new_documents and document not in self.had_turns and self.differs('rounds-by-turns')
            for node in preorder(document.root) if document.root is not None else ():
                self.sizes[node] = NO_SIZES if is_new else self.size_now(node)

    def gathered_size(self, node):
        """The size with which a target is gathered."""
        if self.sizes.get(node) is None:
            # What has been inserted since the layout of this turn has no box yet.
            is_new = self.has('rounds-by-turns') and self.size_now(node) != NO_SIZES and self.differs('rounds-by-turns')
            self.sizes[node] = NO_SIZES if is_new else self.size_now(node)
        return self.sizes[node]

    def one_round(self, document, least):
        """Delivers what is deeper; returns the least depth, or None if there was nothing."""
        depths = self.gather(document, least)
        if depths:
            told = self.broadcast(document)
            if told is None or (min(depths) != told and self.differs('depth-at-gathering')):
                return min(depths)
            return told
        if any(observer.skipped for observer in document.resize_observers) and document not in self.failed:
            self.failed.add(document)
            if not any(observer.skips_now for observer in document.resize_observers):
                self.differs('skipped-then-cured')
            for observer in document.resize_observers:
                observer.skipped = False
            self.end_round()
            self.tell(trace.error_line(document))
            self.is_dirty = False
            self.dispatch((document, True), 'error')
            self.disturbed = self.disturbed or self.is_dirty
        return None

    def deep(self, node):
        """The depth as the engine counts it: including the document, if there is one, or the elements around its frame."""
        if self.has('depth-with-frames') and node.document.state is ACTIVE and node.document.frame is not None:
            self.differs('depth-with-frames')
            return depth(node) + self.deep(node.document.frame)
        if not self.has('depth-with-document'):
            return depth(node)
        if tree_document(node) is not None:
            return depth(node) + 1
        self.differs('depth-with-document')
        return depth(node)

    def gather(self, document, least):
        depths = []
        for observer in document.resize_observers:
            observer.active, observer.skips_now = [], False
            if not observer.skipped or not self.has('skipped-then-cured'):
                observer.skipped = False
            for observation in observer.observations.values():
                node = observation.target
                size = self.gathered_size(node).of(observation.box)
                if size == observation.last_reported:
                    continue
                if observation.last_reported == NEVER and size == (0, 0):
                    self.differs('first-size')
                if self.deep(node) > least:
                    observation.gathered = self.sizes[node]
                    observer.active.append(observation)
                    depths.append(self.deep(node))
                else:
                    observer.skipped = observer.skips_now = True
        return depths

    def broadcast(self, document):
        least = None
        place = 0
        while place < len(document.resize_observers):
            observer = document.resize_observers[place]
            place += 1
            if not observer.active:
                continue
            entries = self.entries_of(observer)
            observer.active = observer.active if entries else []
            if not entries:
                observer.skipped = False
                continue
            depths = [self.deep(entry.target) for entry in entries]
            least = min(depths + ([] if least is None else [least]))
            self.resize_told(observer, entries)
            observer.active = []
            observer.skipped = False
            if document.state is not ACTIVE:
                break
        return least

    def entries_of(self, observer):
        """The entries of active observations, with the sizes that the engine reports."""
        standing = {observation.number for observation in observer.observations.values()}
        entries = []
        for observation in observer.active:
            node = observation.target
            if node.document.state is DEAD and self.differs('dead-frame-target'):
                continue
            sizes = self.size_now(node)
            known = observation.gathered if self.has(SIZES_OF_GATHERING) else self.sizes[node]
            if sizes != known and self.differs('sizes-of-last-layout'):
                sizes = known
            entries.append(ResizeEntry(node, sizes))
            if observation.number in standing:
                observation.last_reported = sizes.of(observation.box)
        return entries

    def resize_told(self, observer, entries):
        """The tool's callback, which distinguishes rounds by what was waiting as the round began."""
        place = self.all_resize_observers.index(observer)
        round_ = self.round
        same = (round_ is not None and round_.document is observer.document and place > round_.place
                and any((observer, entry.target) in round_.waiting for entry in entries))
        if not same:
            before = round_.least if round_ is not None and round_.document is observer.document else 0
            self.end_round()
            round_ = self.round = Round(observer.document, self.tool_gathers(observer.document, before))
        round_.place = place
        lines = []
        for entry in entries:
            deep = depth(entry.target)
            round_.least = deep if round_.least is None else min(round_.least, deep)
            if entry.target in self.tool_saw.get(observer, {}):
                box = observer.observations[entry.target].box
                self.tool_saw[observer][entry.target] = entry.sizes.of(box)
            lines.append((trace.resize_line(observer, entry, self.script.version), None))
        self.call(observer.document, observer.handler, entries, lines)

    def tool_gathers(self, document, least):
        """What is waiting as a round begins; the tool reads the sizes to find that out."""
        waiting = set()
        for observer in self.all_resize_observers:
            if observer.document is not document:
                continue
            for node, last in self.tool_saw.get(observer, {}).items():
                if depth(node) > least:
                    if last is None:
                        waiting.add((observer, node))
                        continue
                    self.lay_out(node.document)
                    box = observer.observations[node].box
                    if last != self.world.layout.size(node, box):
                        waiting.add((observer, node))
        return waiting

    def end_round(self):
        ended, self.round = self.round, None
        if ended is not None and ended.document.state is ACTIVE:
            self.tell('round %s %d' % (ended.document.name, ended.least))
