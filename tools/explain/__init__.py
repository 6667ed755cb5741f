"""What bin/explain says of a script's trace: the reasons come from the reference program (tools/reference/), whose trace must
be the proved program's byte for byte.

    source       the script's file: its bytes, and what is said of them
    runs         the proved program and the reference over it, each in a bounded time
    pointing     a line of the script with a mark below a word
    wording      numbers, sizes and rectangles in words
    hints        words that are close, and what is wrong with a word
    faults       lines `syntax`
    limits       lines `limit`
    throws       lines `throw`
    loop_errors  lines `event error`
    cures        a script changed so that a loop error doesn't occur, and tried
    meetings     lines `intersect`
    causes       which commands caused a line
    kept         a world whose layout is kept where only a height changes
    reasons      all other lines
    engines      how an engine's trace differs, by its model
    held         these answers held against recorded traces
    slips        all faults of a text
    foreign      words of CSS and JavaScript
    boxes        the boxes of the tree at a command
    report       the trace with its explanations, as text or as JSON
"""
