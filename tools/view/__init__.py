"""The page of bin/view: a script's trace, why each line was written, and the boxes at the end of each tick.

    boxes      the boxes of a world, packed so that little changes from one tick to the next
    recording  a run of the reference that records trace, callbacks, commands and boxes, tick by tick
    data       the page's data: the recording with the trace and its explanations (tools/explain/)
    page       the page itself: one file of HTML, style and program

    page.html     its frame
    page.css      its style
    text.js       text, escaped as it is put into the page
    boxes.js      unpacks the boxes of a tick, and finds clips, visible parts, hits and changes
    trace.js      the lines of the trace, and summaries of those of a tick
    sentences.js  a line of the trace as a sentence
    story.js      a tick in words: what happened in it, in order
    drawing.js    the boxes in SVG, to scale
    panels.js     ticks, changes, the chosen box and the script
    choosing.js   the choice, and how the page shows it
    main.js       clicks and keys
"""
