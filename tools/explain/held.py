"""The answers of `--as ENGINE` held against recorded traces: tools/explain/held-against and tests/explain.

Gives to others: `recorded(folder, path, engine)`, a stored trace; `verdict(text, engine, told)`, what the answer is worth; and
`reason(text, engine, told)`, why it isn't exact.
"""
import os

from . import engines


def recorded(folder, path, engine):
    """The recorded lines for a script, or None."""
    name = os.path.splitext(os.path.basename(path))[0]
    for ending in ('trace', engine):
        trace = os.path.join(folder, '%s.%s' % (name, ending))
        if os.path.exists(trace):
            with open(trace, encoding='latin-1') as file:
                return file.read().splitlines()
    return None


def verdict(text, engine, told):
    """(what the answer is worth, whether the rules give the recorded trace)."""
    from models.classes import alike, by_rules
    rules = by_rules(text.decode('latin-1'))
    predicted = engines.Predicted(text, engine, rules)
    if predicted.lines == told:
        return 'exact', rules == told
    if predicted.failure is None and not predicted.is_certain:
        if alike(predicted.lines, told, engine, text.decode('latin-1')):
            return 'fractions', rules == told
        if in_any_order(predicted.lines) == in_any_order(told):
            return 'order', rules == told
        return 'wrong, with a note', rules == told
    return 'wrong', rules == told


def reason(text, engine, told):
    """Why an answer isn't exact: what the model needs to be told of the recorded trace, or that this doesn't suffice."""
    from models.classes import CLASSES, alike, given, script_of
    text = text.decode('latin-1')
    model = engines.following(engine, CLASSES[engine], script_of(text))
    orders = [said for holds, said in ((model.in_any_order, "the order of intersection observers or of an observer's targets"),
                                       (model.orders_frames, "the order of frames' documents")) if holds]
    if alike(model.lines, told, engine, text):
        return 'fractions of a pixel'
    if not given(text, engine, told):
        return 'unknown: the model differs even if it is told each order'
    return ' and '.join(orders) or 'unknown'


def in_any_order(lines):
    """The lines of a trace, sorted within each tick."""
    ticks = [[]]
    for line in lines:
        if line.startswith('tick '):
            ticks.append([])
        ticks[-1].append(line)
    return [sorted(tick) for tick in ticks]
