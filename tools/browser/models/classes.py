"""The classes that each engine has, and those that a trace is in."""
import functools
import itertools
import re

from reference import grammar
from reference.page import Page

from .model import Model
from .traits import (ANCHORS_BEFORE_LAYOUT, BEGIN_IS_THERE, CALLBACKS_OF_THE_STEP, CROSSED_IS_TURNED, DEAD_READS_THROW,
                     DEAD_ROOTS_OF_A_LIST, DEVICE_PIXELS_ARE_LAID_OUT, EDGES_REACH_OUT, EMPTY_BOXES_REACH_DOWN, EMPTY_PAGES_LAY_OUT,
                     EMPTY_ROOTS_COUNT_NOTHING, EVENTS_GO_WITH_BOXES, EVERY_ROOT, FIRST_USE_COUNTS, FRAMES_BEGIN_AS_THEY_COME,
                     FRAMES_FOLLOW_A_RATIO, FRAMES_IN_TIME, FRAMES_LAY_OUT, FRAMES_WAIT, HIDDEN_READS_NOTHING, IMPLICIT_ROOT, LATE_SCROLLS,
                     LENGTHS_ARE_CUT, LENGTHS_ARE_FLOORED, NOTHING_FOR_DETACHED, ONE_PIXEL_AT_LEAST, PERCENTAGES_ARE_CUT,
                     PLACED_AS_ROUNDS_BEGIN, QUERIES_IN_UPDATE, QUEUES_WAIT, ROOTS_GO_AWAY, ROOT_MARGINS_COUNT, SCROLLING_ROOT_UNTOLD,
                     SCROLLS_ARE_CUT, SIZES_OF_GATHERING, TIMERS_LAY_OUT, VIEWPORTS_LAY_OUT, WINDOWS_READ_AT_ONCE)

ALL_THREE = frozenset('''border-widths read-of-dead-frame hidden-frame-keeps-size frame-of-part-pixels reach-of-empty-boxes
    reach-with-margins reach-with-padding scroll-of-part-pixels observe-again first-size offset-of-moved-box frame-order stored-offset
    sizes-of-last-layout shrink-to-fit root-removed root-rectangle-of-none is-intersecting margin-percentages
    scroll-margin-percentages scroll-margin-of-viewports scroll-margin-of-root positioned-root viewport-of-part-pixels'''.split())
CHROMIUM = ALL_THREE | {ANCHORS_BEFORE_LAYOUT, DEVICE_PIXELS_ARE_LAID_OUT, EMPTY_PAGES_LAY_OUT, LATE_SCROLLS, LENGTHS_ARE_FLOORED, NOTHING_FOR_DETACHED,
                        ONE_PIXEL_AT_LEAST, PERCENTAGES_ARE_CUT, PLACED_AS_ROUNDS_BEGIN, ROOTS_GO_AWAY, ROOT_MARGINS_COUNT,
                        SCROLLING_ROOT_UNTOLD, VIEWPORTS_LAY_OUT} | set('''
    event-of-idle-document ratio-change-event ratio-scroll-event scroll-anchoring scroll-of-hidden-frame unobserve-in-delivery queue-after-unobserve
    listener-of-adopted-element frame-callback-late rounds-by-turns depth-at-gathering skipped-then-cured dead-frame-target
    target-of-dead-frame observers-in-any-order margin-of-part-pixels crossed-root cut-in-a-frame told-of-dead-root
    entries-of-dead-document ratio-resize-event device-pixels-by-place lengths-at-a-ratio'''.split())
FIREFOX = ALL_THREE | {ANCHORS_BEFORE_LAYOUT, CALLBACKS_OF_THE_STEP, DEAD_READS_THROW, EMPTY_ROOTS_COUNT_NOTHING,
                       EVENTS_GO_WITH_BOXES, FRAMES_BEGIN_AS_THEY_COME, FRAMES_FOLLOW_A_RATIO, FRAMES_LAY_OUT, FRAMES_WAIT, HIDDEN_READS_NOTHING,
                       IMPLICIT_ROOT, NOTHING_FOR_DETACHED, QUERIES_IN_UPDATE, QUEUES_WAIT, SCROLLS_ARE_CUT, WINDOWS_READ_AT_ONCE} | set('''
    replaced-root scroll-anchoring hidden-document-waits ratio-resize-event device-pixels-by-place queue-after-unobserve
    listener-of-adopted-element frame-callback-late told-of-dead-root told-by-own-document resize-observers-by-use
    intersection-observers-by-use lengths-at-a-ratio depth-with-document frame-made-anew'''.split())
WEBKIT = ALL_THREE | {BEGIN_IS_THERE, CROSSED_IS_TURNED, DEAD_ROOTS_OF_A_LIST, EDGES_REACH_OUT, EMPTY_BOXES_REACH_DOWN, EMPTY_ROOTS_COUNT_NOTHING,
                      EVERY_ROOT, FIRST_USE_COUNTS, FRAMES_IN_TIME, LENGTHS_ARE_CUT, QUERIES_IN_UPDATE, SCROLLS_ARE_CUT,
                      SIZES_OF_GATHERING, TIMERS_LAY_OUT, WINDOWS_READ_AT_ONCE} | set('''
    depth-with-frames root-at-content-box zero-without-unit depth-at-gathering crossed-root entries-before-tasks told-in-the-update margin-of-part-pixels scroll-margin-below-a-root
    queries-of-empty-page resize-observers-by-use intersection-observers-by-use boxes-in-a-hidden-frame disconnected-as-root-ends
    told-of-dead-root clips-of-border-boxes callback-out-of-view static-place-read cut-in-a-frame'''.split())
CLASSES = {'chromium': CHROMIUM, 'firefox': FIREFOX, 'webkit': WEBKIT}
NUMBER = re.compile(r'-?\d+(?:\.\d+)?(?:/\d+)?')
# How many pixels sums of sixtieths, percentages of margins, and lengths in a script that sets a ratio may differ by.
NEAR = {'firefox': 0.15, 'webkit': 0.05, 'chromium': 0.15}
PARTS = {'firefox': 'sixtieths-of-a-pixel', 'webkit': 'margin-of-part-pixels', 'chromium': 'lengths-at-a-ratio'}
RATIO = re.compile(r'^[ \t]*ratio[ \t]', re.M)


@functools.lru_cache(1)
def script_of(text):
    """The script, which runs don't change, since each class is left out in a run of its own."""
    return grammar.parse(text.encode('latin-1'))


def run(text, classes, told=(), order=None):
    """The model's run of a script."""
    model = Model(script_of(text), classes, told, order)
    model.run()
    return model


class Another(Exception):
    """A line differs from the browser's."""


class Compared(list):
    """The lines of a run, which is abandoned at the first one that differs from the browser's."""

    def __init__(self, told, engine, text):
        super().__init__()
        self.told, self.engine, self.may_be_near = told, engine, engine != 'chromium' or RATIO.search(text)

    def append(self, line):
        place = len(self)
        if place == len(self.told) or line != self.told[place] and not (self.may_be_near and near(line, self.told[place], self.engine)):
            raise Another
        super().append(line)


def gives(text, classes, told, engine, order):
    """Whether the model gives the browser's trace."""
    model = Model(script_of(text), classes, told, order)
    model.lines = Compared(told, engine, text)
    try:
        model.run()
    except Another:
        return False
    return len(model.lines) == len(told)


def by_rules(text):
    """The rules' trace."""
    lines = []
    Page(script_of(text), lambda line, script_line, about: lines.append(line)).run()
    return lines


def alike(lines, told, engine, text):
    """Whether both traces are the same; up to fractions of a pixel in Firefox, in WebKit's lines of intersections, and in Chromium if the
    script sets a ratio."""
    if lines == told:
        return True
    if engine == 'chromium' and not RATIO.search(text):
        return False
    return len(lines) == len(told) and all(near(*both, engine) for both in zip(lines, told))


def near(line, other, engine):
    """Whether two lines differ only by such fractions. The tool marks an intersection ratio that isn't that of its rectangles with `~`."""
    other = other.replace('~', '')
    if line == other:
        return True
    if NUMBER.sub('#', line) != NUMBER.sub('#', other) or engine == 'webkit' and not line.startswith('intersect '):
        return False
    ours, theirs = line.partition(' device '), other.partition(' device ')
    # A rounded number of device pixels may be another one.
    if engine == 'firefox' and any(abs(number(one) - number(two)) > 1 for one, two in zip(ours[2].split(), theirs[2].split())):
        return False
    return (engine == 'firefox' or ours[2] == theirs[2]) and all(
        abs(number(one) - number(two)) <= (NEAR[engine] if '/' not in one else 0.01)
        for one, two in zip(NUMBER.findall(ours[0]), NUMBER.findall(theirs[0])))


def number(text):
    over, _, below = text.partition('/')
    return float(over) / float(below or 1)


def orders(text, engine, told):
    """The orders of documents to be tried: None is the order in which their frames were inserted; Firefox may have any order."""
    yield None
    names = [line.split()[3] for line in text.splitlines() if line.startswith('frame ')]
    if engine == 'firefox' and 1 < len(names) < 6:
        for order in itertools.permutations(names):
            yield {name: place for place, name in enumerate(order)}


def given(text, engine, told):
    """Whether the model of an engine gives a trace."""
    return any(gives(text, CLASSES[engine], told, engine, order) for order in orders(text, engine, told))


def classes_of(text, engine, told):
    """The classes that a trace is in, or None if the model doesn't give it."""
    for order in orders(text, engine, told):
        first = run(text, CLASSES[engine], told, order)
        if alike(first.lines, told, engine, text):
            break
    else:
        return None
    needed = set(first.noticed)
    for name in sorted(first.met):
        if not gives(text, CLASSES[engine] - {name}, told, engine, order):
            needed.add(name)
    if first.lines != told:
        needed.add(PARTS[engine])
    return needed or one_of(text, engine, told, order, first.met) or named(one_of(text, engine, told, order, CLASSES[engine])) or {'round-lines'}


def named(classes):
    """Those that are classes, not traits."""
    return {name for name in classes if ' ' not in name}


def one_of(text, engine, told, order, names):
    """If each class can be left out by itself: the classes that remain when they are left out one after another."""
    left, waiting, needed = CLASSES[engine], sorted(names), set()
    while waiting:
        name = waiting.pop(0)
        without = run(text, left - {name}, told, order)
        if alike(without.lines, told, engine, text):
            left = left - {name}
            waiting += sorted(without.met - names)
            names = names | without.met
        else:
            needed.add(name)
    return needed
