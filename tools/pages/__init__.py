"""A real page's observers: recorded in a browser, told as a script, and judged; see docs/REAL-PAGES.md and bin/record.

    recorder.js  what runs in the page before its own scripts, and makes the reports on loop errors
    browsers     the browsers: opens a page with the recorder in it, and hears what that sends
    actions      the file of actions: scroll, resize, click, wait
    visiting     a visit to a page: the actions, the waiting, and what went wrong
    reading      a recording's rows by update: what came before each update, its callbacks and its events
    naming       names in a script for elements and observers
    boxes        the boxes of a script: which elements it needs, and their properties as the browser measured them
    handlers     what callbacks did, as handlers
    scripting    the script of a recording
    telling      the browser's own deliveries as lines of a trace
    judging      the recorded trace compared with the script's, and the class of what differs
    report       what bin/record prints
"""
