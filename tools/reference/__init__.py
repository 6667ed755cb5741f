"""The reference program: a second implementation of the rules, written from docs/RULES.md, docs/SCRIPT.md and docs/TRACE.md
independently of the proved program.

It is plain Python with nothing but the standard library, and shares no code with the proved program or its definitions; no
proof depends on it. Each module implements one part of the rules, in the simplest way, and says which:

    lexer         bytes, lines and words of a script
    lengths       lengths, percentages and numbers: how they are written, truncated and printed
    styles        style properties and their values
    media         media queries
    forms         the forms of words, with their descriptions
    grammar       the lines of a script: commands, handlers and blocks
    refusals      exceptions and limits of commands
    world         documents, elements, observers, listeners, timers and tasks
    layout        boxes, widths, heights, scrolling and positions
    intersection  what an intersection observer finds, queues and reports
    commands      what each command does
    page          how commands, callbacks and events run
    resize_loop   the resize loop and its error
    update        a tick: timers, the update of the rendering, tasks
    trace         the lines of a trace
    inspector     boxes and hits (`--inspect`, `--hit`)
    streams       several pages in one stream (`--pages`)
    program       the arguments of the command line and the exit statuses
    generator     the scripts of `--generate N`
    judge         the judgement of a recorded trace (`--judge`)
    lint          the certificates of resize loops (`--lint`)
    comparing     the comparison of the two programs, for tools/compare
    shrinking     reduces a script for which something holds
    random_scripts  random scripts by kind

`available` says which parts of this the proved program supports: today all of them.
"""
