"""The resize loop and its error (the rules 'Active' and 'The resize loop' of docs/RULES.md; Resize Observer, 3.1 and 3.4)."""
from . import trace
from .layout import BORDER, CONTENT, DEVICE
from .world import ACTIVE, depth


class ResizeEntry:
    """An entry for a callback: a target with its sizes at that moment."""
    __slots__ = ('target', 'corner', 'content', 'border', 'device')

    def __init__(self, layout, target):
        self.target, self.corner = target, layout.content_corner(target)
        self.content, self.border = layout.size(target, CONTENT), layout.size(target, BORDER)
        self.device = layout.size(target, DEVICE)


class Skipped:
    """An observation that a loop left undelivered, as it was then."""

    def __init__(self, observer, observation, size, depth_):
        self.observer, self.observation, self.size, self.depth = observer, observation, size, depth_
        self.last_reported, self.told = observation.last_reported, observation.told


class LoopError:
    """What a loop that ends with the error event left undelivered, and the depth that its last round reached."""

    def __init__(self, document, depth_reached, skipped):
        self.document, self.depth_reached, self.skipped = document, depth_reached, skipped


def gather(page, document, least):
    """Gathers active observations: those deeper than this wait to be delivered, others are skipped; returns whether any wait."""
    layout = page.world.layout
    for observer in document.resize_observers:
        observer.active, observer.skipped = [], []
        for observation in observer.observations.values():
            if layout.size(observation.target, observation.box) != observation.last_reported:
                deeper = depth(observation.target) > least
                (observer.active if deeper else observer.skipped).append(observation)
    return any(observer.active for observer in document.resize_observers)


def broadcast(page, document):
    """Calls back each observer with what waits for it; returns the least depth delivered, or None if the document ended."""
    least = None
    place = 0
    while place < len(document.resize_observers):     # a callback may create observers
        observer = document.resize_observers[place]
        place += 1
        if not observer.active:
            continue
        delivered = _deliver(page, observer)
        least = delivered if least is None else min(least, delivered)
        if document.state is not ACTIVE:
            return None
        observer.active = []
    return least


def _deliver(page, observer):
    """Calls back once, with an entry for each active observation; returns the least depth of their targets."""
    layout = page.world.layout
    standing = {observation.number for observation in observer.observations.values()}
    entries, depths = [], []
    for observation in observer.active:
        entries.append(ResizeEntry(layout, observation.target))
        depths.append(depth(observation.target))
        if observation.number in standing:
            observation.last_reported, observation.told = layout.size(observation.target, observation.box), True
    lines = [(trace.resize_line(observer, entry, page.world.version), (observer, entry)) for entry in entries]
    page.call(observer.document, observer.handler, entries, lines)
    return min(depths)


def run(page, document):
    least = 0
    while gather(page, document, least):
        least = broadcast(page, document)
        if least is None:
            return
        page.tell('round %s %d' % (document.name, least))
    layout = page.world.layout
    skipped = [Skipped(observer, observation, layout.size(observation.target, observation.box), depth(observation.target))
               for observer in document.resize_observers for observation in observer.skipped]
    if skipped:
        page.tell(trace.error_line(document), LoopError(document, least, skipped))
        page.dispatch((document, True), 'error')
