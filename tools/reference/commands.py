"""What each command does once its operands have been looked up: its own exceptions first, then its limits, then its effect
(docs/SCRIPT.md, 'Commands' and 'The order of exceptions'). A command that throws or meets a limit changes nothing.

EFFECTS has a function for each command except `each`, `when` and `tick`, which page.py runs; it is given the page, the
command, and the values of its operands in order. CONDITIONS has one for each condition of `when`.
"""
from . import intersection, trace
from .forms import NONE
from .grammar import Operand
from .layout import BORDER
from .lengths import AUTO, GREATEST_WRITTEN, bad_margin_part, read_margins
from .media import matches
from .refusals import Limit, Throw
from .world import (FRESH, Callback, Document, Element, IntersectionObserver, Listener, Observation, QueryList, Registration,
                    ResizeObserver, Task, depth, height, path)


def _check_limit(page, kind, held):
    most = page.world.most[kind]
    if held >= most:
        raise Limit(kind, most)


# --- the viewport and the tree (the rules 'Tree' and 'Documents'; DOM, 4.2.3) -------------------------------------------------

def viewport(page, command, width, height_):
    page.world.viewport_size = (width, height_)
    page.world.changed()


def ratio(page, command, hundredths):
    page.world.pixel_ratio = hundredths


def _make_element(page, command, name, kind, document, natural=(0, 0)):
    world = page.world
    element = world.names[name] = Element(name, command.line, kind, document, natural)
    world.elements_made += 1
    return element


def block(page, command, name, document):
    _check_limit(page, 'nodes', page.world.elements_made)
    _make_element(page, command, name, 'block', document)


def image(page, command, name, document, width, height_):
    _check_limit(page, 'nodes', page.world.elements_made)
    _make_element(page, command, name, 'image', document, (width, height_))


def frame(page, command, name, document, inner_name):
    world = page.world
    _check_limit(page, 'nodes', world.elements_made)
    _check_limit(page, 'documents', len(world.documents))
    element = _make_element(page, command, name, 'frame', document)
    element.framed = world.names[inner_name] = Document(inner_name, command.line, FRESH, element)
    world.documents.append(element.framed)


def append(page, command, parent, node):
    _put(page, command, parent, node, None)


def before(page, command, parent, node, sibling):
    _put(page, command, parent, node, sibling)


def _put(page, command, parent, node, sibling):
    """A document counts as the parent of its root element; it can't have a second one, nor the same one again."""
    most = page.world.most['depth']
    if isinstance(parent, Element) and node in path(parent):
        raise Throw('HierarchyRequestError', command.operands[1], (
            "`%s` can't be inserted into itself" % node.name if node is parent else
            "`%s` is a descendant of `%s`, so `%s` can't be inserted into it" % (parent.name, node.name, node.name)))
    if sibling is not None and (sibling.parent or sibling.root_of) is not parent:
        raise Throw('NotFoundError', command.operands[2], "`%s` isn't a child of `%s`: %s" % (
            sibling.name, parent.name, _standing(sibling)))
    if isinstance(parent, Document) and parent.root is not None:
        raise Throw('HierarchyRequestError', command.operands[0], (
            'the document `%s` already has a root element, `%s`' % (parent.name, parent.root.name)))
    above = depth(parent) if isinstance(parent, Element) else 0
    if above + height(node) > most:
        raise Limit('depth', most, parent)
    page.world.insert(parent, node, sibling)


def _standing(node):
    if node.parent is not None:
        return 'its parent is `%s`' % node.parent.name
    if node.root_of is not None:
        return 'it is the root element of `%s`' % node.root_of.name
    return 'it has no parent'


def remove(page, command, node):
    page.world.remove(node)


def set_(page, command, node, property_, declaration):
    fields, value = declaration
    for field in fields:
        node.style[field] = value
    page.world.changed()


def grow(page, command, node, property_, by):
    old = node.style[property_]
    if old is AUTO or old[0] != 'px':
        raise Throw('TypeError', command.operands[1], 'the %s of `%s` is `%s`; only one in pixels can grow' % (
            property_, node.name, AUTO if old is AUTO else percent_text(old[1])))
    node.style[property_] = ('px', max(0, min(old[1] + by, GREATEST_WRITTEN)))
    page.world.changed()


def percent_text(hundredths):
    whole, rest = divmod(hundredths, 100)
    return ('%d.%02d' % (whole, rest)).rstrip('0').rstrip('.') + '%'


def load(page, command, node, width, height_):
    if node.kind != 'image':
        raise Throw('TypeError', command.operands[0], '`%s` is a %s; only an image can be loaded' % (node.name, node.kind))
    node.natural = (width, height_)
    page.world.changed()


# --- resize observers (the rule 'What is observed'; Resize Observer, 2.1) -----------------------------------------------------

def ro(page, command, name, document, handler):
    world = page.world
    _check_limit(page, 'resize-observers', world.resize_observers_made)
    observer = world.names[name] = ResizeObserver(name, command.line, document, handler)
    document.resize_observers.append(observer)
    world.resize_observers_made += 1


def ro_observe(page, command, observer, node, box):
    world = page.world
    if node not in observer.observations:
        _check_limit(page, 'resize-observations', world.observations_held)
    ro_unobserve(page, command, observer, node)
    observer.observations[node] = Observation(world.next_number(), command.line, node, box)
    world.observations_held += 1


def ro_unobserve(page, command, observer, node):
    if observer.observations.pop(node, None) is not None:
        page.world.observations_held -= 1


def ro_disconnect(page, command, observer):
    page.world.observations_held -= len(observer.observations)
    observer.observations = {}
    observer.active = []


# --- intersection observers (the rule 'Intersections'; Intersection Observer, 2.2) --------------------------------------------

def io(page, command, name, document, handler, root, margin, scroll_margin, thresholds):
    world = page.world
    margins = _margins(command, 4, margin, 'margin')
    scroll_margins = None if scroll_margin is None else _margins(command, 5, scroll_margin, 'scroll margin')
    for place, threshold in enumerate(thresholds):
        if not 0 <= threshold <= 10000:
            raise Throw('RangeError', _word_of(command.operands[6], place), 'this threshold is outside the range from 0 to 1')
    _check_limit(page, 'intersection-observers', len(world.intersection_observers))
    observer = world.names[name] = IntersectionObserver(name, command.line, document, handler,
                                                        None if root == NONE else root, margins, scroll_margins,
                                                        sorted(thresholds) or [0])
    world.intersection_observers.append(observer)


def _margins(command, place, text, called):
    margins = read_margins(text)
    if margins is None:
        bad = bad_margin_part(text)
        said = "`%s` isn't a valid part of a %s" % (text.split(b' ')[bad].decode('ascii'), called) if bad < 4 else (
            'a %s has at most four parts' % called)
        raise Throw('SyntaxError', _word_of(command.operands[place], bad), said)
    return margins


def _word_of(operand, place):
    """One of the words of an operand that consists of several."""
    return Operand(operand.form, operand.value, operand.word + place)


def io_observe(page, command, observer, node):
    world = page.world
    if node in observer.registrations:
        return
    _check_limit(page, 'intersection-observations', world.registrations_held)
    observer.registrations[node] = Registration(node, command.line)
    world.registrations_held += 1


def io_unobserve(page, command, observer, node):
    if observer.registrations.pop(node, None) is not None:
        page.world.registrations_held -= 1


def io_disconnect(page, command, observer):
    page.world.registrations_held -= len(observer.registrations)
    observer.registrations = {}


def io_take(page, command, observer):
    taken, observer.queue = observer.queue, []
    page.tell('take %s %d' % (observer.name, len(taken)))
    for entry in taken:
        page.tell(trace.intersect_line(observer, entry), (observer, entry))


# --- listeners and query lists (the rules 'Events' and 'Resized viewports'; DOM, 2.7; CSSOM View, 4.2) ------------------------

def listen(page, command, listened, event, handler):
    world = page.world
    held = world.listeners.setdefault(listened, [])
    if any(listener.event == event and listener.handler is handler for listener in held):
        return
    _check_limit(page, 'listeners', world.listeners_held)
    held.append(Listener(world.next_number(), command.line, event, handler))
    world.listeners_held += 1


def unlisten(page, command, listened, event, handler):
    held = page.world.listeners.get(listened, [])
    for listener in held:
        if listener.event == event and listener.handler is handler:
            held.remove(listener)
            page.world.listeners_held -= 1
            return


def media(page, command, name, document, queries):
    world = page.world
    _check_limit(page, 'queries', len(world.query_lists))
    state = matches(queries, world.layout.viewport(document))
    world.names[name] = QueryList(name, command.line, document, queries, state)
    world.query_lists.append(world.names[name])


# --- frame callbacks, timers and tasks (the rules of these names; HTML, animation frames and timers) --------------------------

def raf(page, command, document, key, handler):
    world = page.world
    held = world.frame_callbacks.setdefault(document, {})
    _check_key(command, held, key, document, 'a frame callback')
    _check_limit(page, 'frame-callbacks', world.frame_callbacks_held)
    held[key] = Callback(world.next_number(), command.line, handler)
    world.frame_callbacks_held += 1


def _check_key(command, held, key, document, called):
    if key in held:
        raise Throw('TypeError', command.operands[1], 'the key `%s` has been in use since line %d, by %s of the document `%s`' % (
            key, held[key].line, called, document.name))


def cancel_raf(page, command, document, key):
    if page.world.frame_callbacks.get(document, {}).pop(key, None) is not None:
        page.world.frame_callbacks_held -= 1


def timer(page, command, document, key, wait, handler):
    world = page.world
    held = world.timers.setdefault(document, {})
    _check_key(command, held, key, document, 'a timer')
    _check_limit(page, 'timers', world.timers_held)
    held[key] = Callback(world.next_number(), command.line, handler, world.clock + wait)
    world.timers_held += 1


def clear_timer(page, command, document, key):
    if page.world.timers.get(document, {}).pop(key, None) is not None:
        page.world.timers_held -= 1


def post(page, command, document, handler):
    world = page.world
    _check_limit(page, 'tasks', world.posted_held)
    world.tasks.append(Task(document, command.line, handler))
    world.posted_held += 1


# --- scrolling and reading (the rules 'Scrolling' and '`read`'; CSSOM View, 4 to 6) -------------------------------------------

def _scrolled(page, thing):
    """What scrolling it scrolls: (element or document, the document with the list for its event, range, offset in force), or None."""
    layout = page.world.layout
    if isinstance(thing, Element) and thing.root_of is not None:
        thing = thing.root_of
    if isinstance(thing, Document):
        return thing, thing, layout.document_range(thing), layout.document_offset(thing)
    if layout.has_box(thing) and layout.scrolls(thing):
        return thing, thing.document, layout.element_range(thing), layout.element_offset(thing)
    return None


def scroll(page, command, thing, left, top):
    found = _scrolled(page, thing)
    if found is not None:
        _scroll_to(page, found, left, top)


def scroll_by(page, command, thing, left, top):
    found = _scrolled(page, thing)
    if found is not None:
        _scroll_to(page, found, found[3][0] + left, found[3][1] + top)


def _scroll_to(page, found, left, top):
    thing, document, most, old = found
    wanted = (max(0, min(left, most[0])), max(0, min(top, most[1])))
    if wanted == old:
        return
    thing.scroll = wanted
    if thing not in document.pending_scrolls:
        document.pending_scrolls.append(thing)
    page.world.scrolled()


def say(page, command, word):
    page.tell('say ' + word)


def read(page, command, thing):
    layout = page.world.layout
    if isinstance(thing, Document):
        units = (0, 0) + tuple(layout.viewport(thing)) + layout.document_offset(thing)
    elif not layout.has_box(thing):
        units = (0,) * 6
    else:
        offset = layout.element_offset(thing) if layout.scrolls(thing) else (0, 0)
        units = layout.place(thing) + layout.border_size(thing) + offset
    page.tell(trace.read_line(thing.name, units))


# --- conditions ---------------------------------------------------------------------------------------------------------------

def _wider(page, node, length):
    return page.world.layout.size(node, BORDER)[0] > length


def _taller(page, node, length):
    return page.world.layout.size(node, BORDER)[1] > length


def _matches(page, queries):
    return matches(queries.queries, page.world.layout.viewport(queries.document))


def _attached(page, node):
    return node.parent is not None or node.root_of is not None


def _seen(page):
    if page.entry is None:
        raise Throw('ReferenceError', None, '`seen` is about the current entry, and there is none outside an `each`')
    if not isinstance(page.entry, intersection.Entry):
        raise Throw('TypeError', None, '`seen` is about an intersection entry, but the current entry is a resize entry')
    return page.entry.meets


CONDITIONS = {'wider': _wider, 'taller': _taller, 'matches': _matches, 'attached': _attached, 'seen': _seen}
EFFECTS = {
    'viewport': viewport, 'ratio': ratio, 'block': block, 'image': image, 'frame': frame, 'append': append, 'before': before,
    'remove': remove, 'set': set_, 'grow': grow, 'load': load, 'ro': ro, 'ro-observe': ro_observe,
    'ro-unobserve': ro_unobserve, 'ro-disconnect': ro_disconnect, 'io': io, 'io-observe': io_observe,
    'io-unobserve': io_unobserve, 'io-disconnect': io_disconnect, 'io-take': io_take, 'listen': listen, 'unlisten': unlisten,
    'media': media, 'raf': raf, 'cancel-raf': cancel_raf, 'timer': timer, 'clear-timer': clear_timer, 'post': post,
    'scroll': scroll, 'scroll-by': scroll_by, 'say': say, 'read': read,
}
