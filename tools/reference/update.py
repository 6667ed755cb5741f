"""A tick: the timers that are due, one update of the rendering, and the tasks (the rules 'A tick', 'Resized viewports, scrolls
and query lists', 'Frame callbacks' and 'Timers and tasks' of docs/RULES.md; HTML, event loops and animation frames; CSSOM
View, 4.2 and 13).
"""
from . import intersection, resize_loop, trace
from .media import matches
from .refusals import Throw
from .world import ACTIVE, Document


def tick(page, command, time):
    world = page.world
    if time < world.clock:
        raise Throw('RangeError', command.operands[0], "the clock is at %d, and time can't go backwards" % world.clock)
    world.clock = time
    page.tell('tick %d' % time)
    _run_timers(page)
    update_the_rendering(page)
    _run_tasks(page)


def update_the_rendering(page):
    """Runs each part for all documents that are Active as the update begins and still are at their turn, then the next part."""
    documents = page.world.active_documents()
    for part in (_resize_steps, _scroll_steps, _media_steps, _frame_callbacks, resize_loop.run, _intersections):
        for document in documents:
            if document.state is ACTIVE:
                part(page, document)


def _run_timers(page):
    world = page.world
    due = [(callback.due, callback.number, document, key) for document, held in world.timers.items()
           for key, callback in held.items() if callback.due <= world.clock]
    for _, number, document, key in sorted(due, key=lambda timer: timer[:2]):
        callback = world.timers[document].get(key)
        if callback is None or callback.number != number:     # cleared in the meantime, maybe replaced
            continue
        del world.timers[document][key]
        world.timers_held -= 1
        if document.state is ACTIVE:
            page.tell('timer %s %s' % (document.name, key))
        page.call(document, callback.handler)


def _resize_steps(page, document):
    size = page.world.layout.viewport(document)
    noted, document.noted_size = document.noted_size, size
    if noted is not None and noted != size:
        page.tell('event resize @' + document.name)
        page.dispatch((document, True), 'resize')


def _scroll_steps(page, document):
    taken, document.pending_scrolls = document.pending_scrolls, []
    for thing in taken:
        if document.state is not ACTIVE:
            return
        page.fire('event scroll ' + thing.name, thing, 'scroll')
        if isinstance(thing, Document):
            page.dispatch((thing, True), 'scroll')


def _media_steps(page, document):
    world = page.world
    place = 0
    while place < len(world.query_lists):             # a listener may create lists
        queries = world.query_lists[place]
        place += 1
        if queries.document is not document:
            continue
        if document.state is not ACTIVE:
            return
        state = matches(queries.queries, world.layout.viewport(document))
        if state != queries.state:
            queries.state = state
            page.fire('event change %s %s' % (queries.name, 'true' if state else 'false'), queries, 'change')


def _frame_callbacks(page, document):
    world = page.world
    for key, asked in list(world.frame_callbacks.get(document, {}).items()):
        if document.state is not ACTIVE:
            return
        callback = world.frame_callbacks[document].get(key)
        if callback is None or callback.number != asked.number:   # cancelled in the meantime, maybe replaced
            continue
        del world.frame_callbacks[document][key]
        world.frame_callbacks_held -= 1
        page.tell('frame %s %s' % (document.name, key))
        page.call(document, callback.handler)


def _intersections(page, document):
    intersection.update(page.world, document)


def _run_tasks(page):
    world = page.world
    while world.tasks:
        task = world.tasks.pop(0)
        if task.handler is None:
            _notify(page, task.document)
            continue
        world.posted_held -= 1
        if task.document.state is ACTIVE:
            page.tell('task %s %s' % (task.document.name, task.handler.name))
        page.call(task.document, task.handler)


def _notify(page, document):
    """Hands each intersection observer of a document its queue, unless that is empty."""
    if document.state is not ACTIVE:
        return
    document.notify_queued = False
    for observer in intersection.observers_of(page.world, document):
        if observer.queue:
            taken, observer.queue = observer.queue, []
            lines = [(trace.intersect_line(observer, entry), (observer, entry)) for entry in taken]
            page.call(observer.document, observer.handler, taken, lines)
