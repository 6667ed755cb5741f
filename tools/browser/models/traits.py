"""Traits: how an engine's version of a class differs from that of the first engine that has the class. They aren't classes themselves."""
HIDDEN_READS_NOTHING, DEAD_READS_THROW, SCROLLS_ARE_CUT = 'hidden reads nothing', 'dead reads throw', 'scrolls are cut'
LATE_SCROLLS, FRAMES_IN_TIME = 'late scrolls', 'frames in time'
CROSSED_IS_TURNED = 'crossed is turned'
# Queued entries: an observer without targets isn't notified, and its entries stay.
QUEUES_WAIT = 'queues wait'
# Media query lists of the page's own document: evaluated in an update, as in the rules.
QUERIES_IN_UPDATE = 'queries in the update'
# Scroll ranges: a child without area, of which only the lower edge counts; an element at the root without area, and the margins of one.
EMPTY_BOXES_REACH_DOWN = 'empty boxes reach down'
EMPTY_ROOTS_COUNT_NOTHING, ROOT_MARGINS_COUNT = 'empty roots count nothing', 'root margins count'
# Resize observers: ordered by when they observed their first target.
FIRST_USE_COUNTS = 'first use counts'
# Resize entries: changes since the gathering don't count.
SIZES_OF_GATHERING = 'sizes of the gathering'
# Device pixels: a side that would have none; positions in a round.
ONE_PIXEL_AT_LEAST, PLACED_AS_ROUNDS_BEGIN = 'one pixel at least', 'placed as rounds begin'
# Layout: lengths are in 1/64 device pixel.
DEVICE_PIXELS_ARE_LAID_OUT = 'device pixels are laid out'
# Margins: lengths in whole pixels, floored or truncated, and percentages in whole pixels; which roots a scroll margin expands.
LENGTHS_ARE_FLOORED, LENGTHS_ARE_CUT, PERCENTAGES_ARE_CUT = 'lengths are floored', 'lengths are cut', 'percentages are cut'
SCROLLING_ROOT_UNTOLD, IMPLICIT_ROOT, EVERY_ROOT = 'a root that scrolls, untold', 'the implicit root', 'every root'
# Scroll anchoring: if the anchor is gone, another one is selected by the positions at the last layout.
ANCHORS_BEFORE_LAYOUT = 'anchors before layout'
# Frames that are inserted again: the empty page in one lays out the documents around it, like any new page, before the next commands run.
EMPTY_PAGES_LAY_OUT = 'empty pages lay out'
# A viewport that is set: all documents are laid out, not only the page's own.
VIEWPORTS_LAY_OUT = 'viewports lay out'
# Frames that are inserted: the documents around one are laid out at once, if they have been before.
FRAMES_LAY_OUT = 'frames lay out'
# Roots that are in no tree: one that has moved to another document belongs to none.
ROOTS_GO_AWAY = 'roots go away'
# Entries of an observer whose root's document has ended: delivered if it ended while observers of this document were being notified.
DEAD_ROOTS_OF_A_LIST = 'dead roots of a list'
# Moved boxes: pending events are dropped with them, and a document without its root element is scrolled back to its beginning.
EVENTS_GO_WITH_BOXES = 'events go with boxes'
# Media query lists: in a frame that hasn't been laid out yet they are created with the size that it had when it was inserted.
FRAMES_BEGIN_AS_THEY_COME = 'frames begin as they come'
# A lower ratio: frames are given another size and their own again.
FRAMES_FOLLOW_A_RATIO = 'frames follow a ratio'
# Layout before an update: documents of frames in the one that is laid out don't get their sizes.
FRAMES_WAIT = 'frames wait'
# Frame callbacks: those that exist when their step begins are called.
CALLBACKS_OF_THE_STEP = 'callbacks of the step'
# What tasks have changed is laid out before the commands after that tick.
TIMERS_LAY_OUT = 'timers lay out'
# Intersection rectangles in frames: only their left and top edges.
EDGES_REACH_OUT = 'edges reach out'
# Scrolling to the beginning: what is already there causes no layout, unless it is a root element.
BEGIN_IS_THERE = 'begin is there'
# Reads: reading a window, or an element that is in no tree, causes no layout.
WINDOWS_READ_AT_ONCE, NOTHING_FOR_DETACHED = 'windows read at once', 'nothing for detached'
