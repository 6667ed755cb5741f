"""Random scripts by kind, version of the language and seed, which determine the bytes.

A kind consists of weights for the commands, and scenes that suit it. Scripts that run long are of no use for comparison, so
each seed has a sequence of candidates, of which the first that ends soon is taken.
"""
import random

from .. import styles
from . import faults, scenes, sources
from .builder import Builder

ATTEMPTS = 100
SIZE = 40


class Kind:
    """A description, weights of commands, scenes, random arguments (`words`) if the kind isn't compared by its trace, and a
    function that makes a text of a script (`make`)."""

    def __init__(self, said, weights, liked=(), words=None, make=None):
        self.said, self.weights, self.liked, self.words, self.make = said, weights, liked, words, make


_MIXED = {'set': 6, 'append': 3, 'read': 2}
_POSITIONS = (scenes.positions,)
_OF_VERSION_2 = (scenes.device_pixels, scenes.margins_of_scrolling) + _POSITIONS


def _nearly(chance, lines, version):
    return faults.nearly_a_script(chance, lines)


def _inspected(chance):
    return ['--inspect', str(chance.choice([1, 1, 2, 3, 5, 50]))]


def _hit(chance):
    return ['--hit', str(chance.choice([1, 1, 2, 3, 5])), '%dpx' % chance.randrange(-5, 500),
            chance.choice(['0px', '10px', '55.5px', '150px', '599.98px'])]


KINDS = {
    'layout': Kind('sizes, edges and percentages', {'set': 20, 'grow': 4, 'load': 3, 'read': 10, 'viewport': 2, 'append': 3},
                   (scenes.sizes,) + _POSITIONS),
    'trees': Kind('moves in the tree, and documents that begin and end',
                  {'append': 10, 'before': 6, 'remove': 5, 'read': 3, 'set': 3, 'frame': 4},
                  (scenes.documents_that_die, scenes.documents_that_begin, scenes.depths_that_fall)),
    'frames': Kind('nested frames', {'frame': 6, 'append': 8, 'remove': 4, 'viewport': 3, 'listen': 3, 'media': 3,
                                        'read': 3},
                   (scenes.frames_in_frames, scenes.documents_that_die, scenes.documents_that_begin)),
    'events': Kind('listeners, timers, frame callbacks, tasks and query lists',
                   {'listen': 8, 'unlisten': 4, 'timer': 6, 'clear-timer': 3, 'raf': 6, 'cancel-raf': 3, 'post': 5,
                    'media': 4, 'viewport': 4, 'scroll': 4, 'when': 3},
                   (scenes.keys_that_come_back, scenes.documents_that_die)),
    'scrolling': Kind('scrolls and their events', {'scroll': 10, 'scroll-by': 6, 'set': 6, 'read': 5, 'listen': 3,
                                                   'viewport': 2},
                      (scenes.scrolls_that_wait,) + _POSITIONS),
    'loops': Kind('resize loops', {'ro': 4, 'ro-observe': 10, 'ro-unobserve': 3, 'set': 6, 'grow': 6},
                  (scenes.depths_that_fall, scenes.observers_of_one_another, scenes.device_pixels)),
    'crossings': Kind('intersections', {'io': 5, 'io-observe': 10, 'io-unobserve': 3, 'io-take': 3, 'set': 6, 'scroll': 4,
                                        'append': 3, 'remove': 2},
                      (scenes.queues_between, scenes.frames_in_frames, scenes.margins_of_scrolling)),
    'mixed': Kind('all of these', _MIXED),
    'deep': Kind('chains of elements up to the depth limit',
                 {'append': 6, 'before': 3, 'read': 4, 'set': 4, 'ro-observe': 4}),
    'texts': Kind('texts that are almost scripts', _MIXED, make=_nearly),
    'checks': Kind('the same, with --check', _MIXED, words=lambda chance: ['--check'], make=_nearly),
    'prints': Kind('the same, with --print', _MIXED, words=lambda chance: ['--print'], make=_nearly),
    'summaries': Kind('mixed scripts with --summary', _MIXED, words=lambda chance: ['--summary']),
}
KINDS['lints'] = Kind('scripts with resize loops, with --lint', KINDS['loops'].weights, KINDS['loops'].liked,
                      words=lambda chance: ['--lint'])
KINDS['judgements'] = Kind('mixed scripts and their traces with --judge', _MIXED, words=lambda chance: ['--judge'])
KINDS['inspections'] = Kind('mixed scripts with --inspect', _MIXED, words=_inspected)
KINDS['hits'] = Kind('mixed scripts with --hit', _MIXED, words=_hit)
KINDS['streams'] = Kind('mixed scripts in one stream with --pages', _MIXED, words=lambda chance: ['--pages'])
KINDS_OF_THE_REFERENCE_ALONE = {}
ALL_KINDS = {**KINDS, **KINDS_OF_THE_REFERENCE_ALONE}

_SCENES = (scenes.sizes, scenes.keys_that_come_back, scenes.documents_that_die, scenes.documents_that_begin,
           scenes.scrolls_that_wait, scenes.frames_in_frames, scenes.depths_that_fall, scenes.observers_of_one_another,
           scenes.queues_between)


def candidates(kind, seed, version, trace_of, without=()):
    """Yields (arguments, bytes) of the candidates of a seed; `trace_of` gives a script's trace, or None if it runs too long. If
    `without` contains positions or insets, none are used. Some pages of a stream of version 2 are of version 1."""
    positions = version == 2 and not set(styles.POSITIONED) & set(without)
    for attempt in range(ATTEMPTS):
        chance = random.Random('%s/%s/%d/%d' % (kind, seed, version, attempt))
        made = ALL_KINDS[kind]
        words = made.words(chance) if made.words else []
        if kind == 'streams':
            count = chance.choice([1, 2, 2, 3, 3, 5, 8, 9])
            yield words, sources.stream(chance, [_page(chance, made, chance.randint(1, version), positions) for _ in range(count)])
        elif kind == 'judgements':
            script = _page(chance, made, version, positions)
            trace = trace_of(script)
            if trace is not None:
                yield words, sources.recorded(chance, script, trace)
        elif made.make:
            yield words, made.make(chance, _lines(chance, made, version, positions), version)
        else:
            yield words, _text(_lines(chance, made, version, positions, chain=kind == 'deep'))


def _page(chance, kind, version, positions):
    """A script for a source that contains more than it; sometimes a text that is almost a script."""
    lines = _lines(chance, kind, version, positions and version == 2, size=SIZE // 2)
    return faults.nearly_a_script(chance, lines) if chance.random() < 0.08 else _text(lines)


def _text(lines):
    return ('\n'.join(lines) + '\n').encode()


def _lines(chance, kind, version, positions, size=SIZE, chain=False):
    build = Builder(chance, version, positions, kind.weights, size)
    _first_tree(build, chain)
    plan = _planned_scenes(build, kind)
    if plan and build.happens(0.5):
        plan.pop()(build)
    if build.happens(0.8):
        build.line('tick 0')
    for _ in range(build.size):
        if plan and build.happens(0.1):
            plan.pop()(build)
        build.command(build.pick(False))
    for scene in plan:
        scene(build)
    build.write_tick()
    for name in build.blocks[:3] + build.frames[:2] + build.documents[:3]:
        if build.happens(0.5):
            build.line('read ' + name)
    return ['script %d' % version] + _with_handlers(build, kind)


def _first_tree(build, chain):
    """The root element, some elements below it, styles, observers and listeners."""
    build.line('block r top')
    build.blocks.append('r')
    build.document_of['r'] = 'top'
    if build.happens(0.97):
        build.line('append top r')
    if chain:
        build.make_chain()
    for _ in range(build.chance.randrange(3, 4 + max(4, build.size // 5))):
        kind = build.chance.choices(['block', 'image', 'frame', 'scroller'], [60, 12, 18, 10])[0]
        if kind == 'scroller':
            build.make_scroller()
        else:
            build.make(kind, attached=build.happens(0.93), parent=build.blocks[-1] if build.happens(0.4) else None)
    for _ in range(build.chance.randrange(0, 6)):
        build.line(build.style(build.element()))
    for name, most in (('media', 3), ('ro', 4), ('io', 4), ('ro-observe', 8), ('io-observe', 8), ('listen', 6)):
        for _ in range(build.chance.randrange(0, most + 1)):
            build.command(name)


def _planned_scenes(build, kind):
    """No scenes, or some, most of which suit the kind."""
    if build.happens(0.3):
        return []
    lacking = () if build.positions else _POSITIONS if build.version == 2 else _OF_VERSION_2
    known = [scene for scene in _SCENES + _OF_VERSION_2 + kind.liked * 4 if scene not in lacking]
    return [build.chance.choice(known) for _ in range(build.one_of(1, 1, 2, 3))]


def _with_handlers(build, kind):
    """The lines, with the handlers before, between or after the commands outside them."""
    items = _whole_items(build.lines)
    for number, name in enumerate(build.handlers):
        build.lines = ['handler ' + name]
        for _ in range(build.one_of(0, 1, 1, 2, 2, 3, 4)):
            command = 'each' if build.happens(0.3) else build.pick(True)
            if kind is KINDS['loops'] and build.happens(0.4):
                command = build.one_of('grow', 'set')
            build.command(command, inside=number)
        items.insert(0 if build.happens(0.7) else build.chance.randrange(len(items) + 1), build.lines + ['end'])
    for lines in build.scene_handlers:
        items.insert(0 if build.happens(0.8) else build.chance.randrange(len(items) + 1), lines)
    return [line for item in items for line in item]


def _whole_items(lines):
    """Groups of lines, those of a block kept together."""
    items, open_ = [], 0
    for line in lines:
        if open_:
            items[-1].append(line)
        else:
            items.append([line])
        first = line.split(' ')[0]
        open_ += (first in ('each', 'when')) - (first == 'end')
    return items
