"""The state at a moment: documents, elements, observers, query lists, listeners, timers, frame callbacks and tasks; and the
edits of the tree (the rules 'Tree' and 'Documents' of docs/RULES.md; DOM, 4.2.3 and 4.5; HTML, 4.8.5 and 7.3).

Layout is only cached for one state of the world: `changed` discards all of it, `scrolled` what depends on scroll offsets.
Each thing has the line of the command that created it, for explanations.
"""
from . import styles
from .forms import DOCUMENT, ELEMENT, INTERSECTION_OBSERVER, QUERY_LIST, RESIZE_OBSERVER
from .layout import Layout

FRESH, ACTIVE, DEAD = 'Fresh', 'Active', 'Dead'

_MOST_IN_VERSION_1 = {
    'commands': 1000000, 'nodes': 20000, 'depth': 256, 'documents': 64, 'resize-observers': 4096,
    'intersection-observers': 4096, 'resize-observations': 50000, 'intersection-observations': 50000, 'listeners': 4096,
    'timers': 4096, 'frame-callbacks': 4096, 'tasks': 4096, 'queries': 4096}
MOST = {1: _MOST_IN_VERSION_1,
        2: dict(_MOST_IN_VERSION_1, **{'nodes': 40000, 'commands': 2000000, 'resize-observations': 100000,
                                       'intersection-observations': 100000})}


class Element:
    what = ELEMENT

    def __init__(self, name, line, kind, document, natural=(0, 0)):
        self.name, self.line = name, line
        self.kind = kind                  # block, image or frame
        self.natural = natural
        self.style = dict(styles.FIRST_VALUES)
        self.parent = None
        self.children = []
        self.document = document          # the node document
        self.root_of = None               # the document whose root element it is
        self.framed = None                # a frame's document
        self.scroll = (0, 0)              # the stored position


class Document:
    what = DOCUMENT

    def __init__(self, name, line, state, frame):
        self.name, self.line, self.state, self.frame = name, line, state, frame
        self.root = None
        self.scroll = (0, 0)
        self.noted_size = None            # the viewport's at the last resize steps
        self.pending_scrolls = []
        self.notify_queued = False
        self.resize_observers = []        # in order of creation


class Observation:
    """An observation of a resize observer. `told` says whether a size has been reported."""

    def __init__(self, number, line, target, box):
        self.number, self.line, self.target, self.box = number, line, target, box
        self.last_reported, self.told = (0, 0), False


class ResizeObserver:
    what = RESIZE_OBSERVER

    def __init__(self, name, line, document, handler):
        self.name, self.line, self.document, self.handler = name, line, document, handler
        self.observations = {}            # by target, in order
        self.active, self.skipped = [], []


class Registration:
    """A target of an intersection observer, with the index and whether it intersects that were found last."""

    def __init__(self, target, line):
        self.target, self.line = target, line
        self.index, self.meets = -1, False


class IntersectionObserver:
    what = INTERSECTION_OBSERVER

    def __init__(self, name, line, document, handler, root, margins, scroll_margins, thresholds):
        self.name, self.line, self.document, self.handler = name, line, document, handler
        self.root = root                  # None for the implicit root, a Document or an Element
        self.margins, self.scroll_margins, self.thresholds = margins, scroll_margins, thresholds
        self.registrations = {}           # by target, in order
        self.queue = []


class QueryList:
    what = QUERY_LIST

    def __init__(self, name, line, document, queries, state):
        self.name, self.line, self.document, self.queries, self.state = name, line, document, queries, state


class Listener:
    def __init__(self, number, line, event, handler):
        self.number, self.line, self.event, self.handler = number, line, event, handler


class Callback:
    """A timer with the time at which it is due, or a frame callback."""

    def __init__(self, number, line, handler, due=None):
        self.number, self.line, self.handler, self.due = number, line, handler, due


class Task:
    """A posted task, or one that notifies a document's intersection observers, which has no handler."""

    def __init__(self, document, line=None, handler=None):
        self.document, self.line, self.handler = document, line, handler


class World:
    def __init__(self, version):
        self.version = version
        self.most = MOST[version]
        self.viewport_size = (800 * 64, 600 * 64)
        self.pixel_ratio = 10000          # in hundredths of a percent
        self.clock = 0
        self.begun = 0                    # commands begun
        self.numbers = 0                  # numbers given to observations, listeners and callbacks
        self.top = Document('top', None, ACTIVE, None)
        self.documents = [self.top]
        self.names = {'top': self.top}
        self.elements_made = 0
        self.resize_observers_made = 0
        self.observations_held = 0
        self.intersection_observers = []
        self.registrations_held = 0
        self.query_lists = []
        self.listeners = {}               # (thing, whether its window) -> list
        self.listeners_held = 0
        self.frame_callbacks = {}         # document -> key -> Callback
        self.frame_callbacks_held = 0
        self.timers = {}                  # document -> key -> Callback
        self.timers_held = 0
        self.tasks = []
        self.posted_held = 0
        self._layout = None

    def next_number(self):
        self.numbers += 1
        return self.numbers

    # --- the layout of this moment ------------------------------------------------------------------------------------------

    @property
    def layout(self):
        if self._layout is None:
            self._layout = Layout(self)
        return self._layout

    def changed(self):
        self._layout = None

    def scrolled(self):
        if self._layout is not None:
            self._layout.forget_places()

    # --- the tree -----------------------------------------------------------------------------------------------------------

    def insert(self, parent, node, sibling=None):
        """Inserts a node as the last child of a parent, before a sibling, or as a document's root element; adopts its subtree."""
        if sibling is node:
            place = parent.children.index(node) + 1
            sibling = parent.children[place] if place < len(parent.children) else None
        self.remove(node)
        if isinstance(parent, Document):
            parent.root, node.root_of, document = node, parent, parent
        else:
            node.parent, document = parent, parent.document
            place = len(parent.children) if sibling is None else parent.children.index(sibling)
            parent.children.insert(place, node)
        for inner in preorder(node):
            inner.document = document
        where = tree_document(node)
        if where is not None and where.state is ACTIVE:
            _change_framed(node, FRESH, ACTIVE)
        self.changed()

    def remove(self, node):
        """Removes a node from its parent or document; documents of frames in it become Dead."""
        where = tree_document(node)
        if node.parent is not None:
            node.parent.children.remove(node)
            node.parent = None
        elif node.root_of is not None:
            node.root_of.root = None
            node.root_of = None
        else:
            return
        if where is not None and where.state is ACTIVE:
            _change_framed(node, ACTIVE, DEAD)
        self.changed()

    def active_documents(self):
        """The Active documents in preorder of the tree of frames, the frames of one document in tree order."""
        found, waiting = [], [self.top]
        while waiting:
            document = waiting.pop()
            found.append(document)
            if document.root is not None:
                waiting.extend(reversed([node.framed for node in preorder(document.root)
                                         if node.framed is not None and node.framed.state is ACTIVE]))
        return found


def _change_framed(node, before, after):
    """Changes the state of the documents of frames in this subtree, and in turn of those in their trees."""
    waiting = [node]
    while waiting:
        for inner in preorder(waiting.pop()):
            document = inner.framed
            if document is not None and document.state is before:
                document.state = after
                if document.root is not None:
                    waiting.append(document.root)


def path(node):
    """The node and its ancestors, upwards."""
    while node is not None:
        yield node
        node = node.parent


def depth(node):
    return sum(1 for _ in path(node))


def height(node):
    """The number of elements on the longest path down, both ends included."""
    levels, level = 0, [node]
    while level:
        levels += 1
        level = [child for inner in level for child in inner.children]
    return levels


def tree_document(node):
    """The document whose tree the node is in, or None."""
    while node.parent is not None:
        node = node.parent
    return node.root_of


def preorder(node):
    waiting = [node]
    while waiting:
        node = waiting.pop()
        yield node
        waiting.extend(reversed(node.children))
