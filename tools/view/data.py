"""The page's data as one JSON object: the trace with its explanations (tools/explain/), and the recording.

The trace is the proved program's if that is built. If the recording's trace differs from it, only the trace is shown, and a note says so.
"""
import subprocess

from explain import engines, report, runs
from reference import available, grammar, program
from reference.lexer import Fault, TextLimit

from . import boxes, engine_boxes, recording

MOST_SCRIPT_LINES = 20000
MOST_SCRIPT_BYTES = 2000000


def of(text, name, tick=None, say=lambda sentence: None, engine=None):
    """(object, exit status) for a script's bytes; `tick` is the number of the tick at which the page opens, or None; `engine` the name of
    the engine whose trace is compared, or None."""
    try:
        recorded, failure = _recorded(text, tick, say), None
    except Exception as fault:
        recorded, failure = None, repr(fault)
    say('explaining the trace')
    trace = report.explained(text, recorded)
    notes = [note for note in trace.notes if note != report.NOT_BUILT]        # the page says so itself
    if failure:
        notes.append("The boxes aren't shown: bin/view failed with %s, which is a bug in it." % failure)
    if recorded is not None and not _is_same(recorded, trace):
        recorded = None
        notes.append("The boxes aren't shown: they would be those of a different run.")
    page = {'name': name, 'status': trace.status, 'trace': 'proved' if runs.is_built() else 'reference', 'open': tick}
    page.update(_recording_parts(recorded, trace, notes) if recorded is not None else _plain_parts(trace))
    page['checked'] = None if recorded is None else _checked(recorded, text, notes)
    if engine is not None and trace.lines and not trace.lines[0][0].startswith(('syntax ', 'limit ')):
        say('asking the model of %s' % engines.ENGINES[engine])
        predicted = engines.Predicted(text, engine, [line[0] for line in trace.lines])
        page['as'] = _engine_parts(predicted, page['firstLine'], notes)
        if page['as'] is not None and recorded is not None:
            page['as']['boxes'] = engine_boxes.differences(recorded, predicted.script, engine)
            page['elements'], page['documents'] = recorded.things.listed()        # some may be only in the engine's run
    page.update(_script_parts(trace.script, page, notes))
    page['notes'] = notes
    return page, trace.status


def _recorded(text, tick, say):
    try:
        script = grammar.parse(text, available.LANGUAGE)
    except (Fault, TextLimit):
        return None
    count = sum([command.name == 'tick' for command in script.commands])
    first = 1
    if tick is not None and count > recording.MOST_TICKS:
        first = max(1, min(tick, count) - recording.MOST_TICKS // 2)
    say('running the script')
    return recording.Recording(script, first, lambda ticks: say('%d of %d ticks' % (ticks, count))).record()


def _is_same(recorded, trace):
    """Whether the recorded lines and those of the trace agree, as far as both go."""
    start = recorded.told_before
    return all(line.text == told[0] for line, told in zip(recorded.lines, trace.lines[start:]))


def _checked(recorded, text, notes):
    """The number of the last tick kept, if the proved program can be asked for its boxes then and gives the same ones; otherwise None."""
    if '--inspect' not in available.WORDS or not runs.is_built() or recorded.last_tick is None or recorded.status != program.DONE:
        return None
    number, packed = recorded.last_tick
    try:
        done = subprocess.run([runs.PROGRAM, '--inspect', str(number)], input=text, stdout=subprocess.PIPE,
                              stderr=subprocess.DEVNULL, timeout=runs.SECONDS_OF_THE_PROGRAM)
    except subprocess.TimeoutExpired:
        return None
    if packed.left_out or done.returncode not in (program.DONE, program.LIMIT):
        return None
    if done.stdout.decode('ascii', 'replace').splitlines() == list(boxes.inspected(packed, *recorded.things.listed())):
        return number
    notes.append('The proved program gives other boxes at the end of tick %d, so one of the two is wrong.' % number)
    return None


def _engine_parts(predicted, first, notes):
    """What an engine does differently: by the numbers of the lines kept, what comes in their place, and what comes only there."""
    name = engines.ENGINES[predicted.engine]
    if predicted.failure is not None:
        notes.append('There is no trace of %s: %s.' % (name, predicted.failure))
        return None
    notes.extend([predicted.summary('The lines are those of the run by the rules. By its model, the trace of %s')] + predicted.notes)
    found, seen = {'name': name, 'lines': {}, 'added': {}, 'boxes': None}, {}
    for place, one in predicted.in_order():
        if one.rule is not None:
            found['lines'][one.rule - first] = [one.kind, one.line, predicted.told(one, seen, place + 1)]
        else:
            found['added'].setdefault(one.after - first, []).append([one.line, predicted.told(one, seen, place + 1)])
    return found


# --- the recording ------------------------------------------------------------------------------------------------------------

def _recording_parts(recorded, trace, notes):
    elements, documents = recorded.things.listed()
    start = recorded.told_before
    # The page itself gives the reasons for lines that aren't about anything more than that.
    lines = [_line(line, explanation if line.about is not None else []) for line, (_, _, explanation) in zip(recorded.lines, trace.lines[start:])]
    _note_left_out(recorded, trace, notes)
    return {'elements': elements, 'documents': documents, 'handlers': {
        handler.name: handler.line for handler in recorded.script.handlers.values()},
            'lines': lines, 'steps': [_step(step) for step in recorded.steps], 'ticks': recorded.ticks, 'stopped': not recorded.ended,
            'lineCount': len(trace.lines), 'firstLine': start}


def _line(line, explanation):
    """[text, script's line, elements, causes, what more is known, explanation], without empty ones at its end."""
    row = [line.text, line.line, line.elements, line.causes, line.more, explanation]
    while not row[-1]:
        row.pop()
    return row


def _step(step):
    found = {'kind': step.kind, 'number': step.number, 'line': step.line, 'time': step.time, 'commands': step.commands,
             'since': step.since, 'log': step.log, 'boxes': step.boxes}
    if step.moments:
        found['moments'] = step.moments
    if step.not_kept:
        found['notKept'] = step.not_kept
    if step.lines_not_kept:
        found['linesNotKept'] = step.lines_not_kept
    return found


def _note_left_out(recorded, trace, notes):
    shown = len([step for step in recorded.steps if step.kind == recording.TICK])
    if not recorded.ended:
        is_in_tick = recorded.steps[-1:] and recorded.steps[-1].kind == recording.TICK and recorded.steps[-1].number > recorded.ticks
        notes.append('The run was stopped %s tick %s; everything later is left out.' % (
            'in' if is_in_tick else 'after', '{:,}'.format(recorded.ticks + bool(is_in_tick))))
    if recorded.ticks > shown:
        notes.append('%s of %s ticks are shown, from the %s on; `bin/view --tick K` shows those around tick K.' % (
            '{:,}'.format(shown), '{:,}'.format(recorded.ticks), _ordinal(recorded.first)))
    if recorded.lines_left_out and recorded.ticks == shown:
        notes.append('The last %s of %s lines of the trace are left out.' % (
            '{:,}'.format(recorded.lines_left_out), '{:,}'.format(len(recorded.told))))
    if recorded.boxes_left_out_from is not None:
        notes.append('From tick %d on, the boxes are left out, because too many have changed by then.' % recorded.boxes_left_out_from)
    if recorded.no_moments_from is not None:
        notes.append('From tick %d on, the drawing is always that of the end of a tick: there are too many boxes to keep each moment.'
                     % recorded.no_moments_from)
    if recorded.causes.unknown_from is not None:
        notes.append("From tick %d on, the page doesn't say which command changed an observed size: there are too many to check."
                     % recorded.causes.unknown_from)
    not_kept = sum([step.not_kept for step in recorded.steps])
    if not_kept:
        notes.append('%s of the commands of handlers are left out.' % '{:,}'.format(not_kept))


def _ordinal(number):
    ending = 'th' if number % 100 in (11, 12, 13) else {1: 'st', 2: 'nd', 3: 'rd'}.get(number % 10, 'th')
    return '{:,}{}'.format(number, ending)


# --- a trace alone ------------------------------------------------------------------------------------------------------------

def _plain_parts(trace):
    """For a script that is refused, or whose trace isn't the reference's: the lines by tick, without boxes."""
    kept = trace.lines[:recording.MOST_LINES]
    lines = [[text, line or 0, [], [], None, explanation] for text, line, explanation in kept]
    steps, ticks = [_plain_step(recording.START, 0)], 0
    for place, (text, _, _) in enumerate(kept):
        if text.startswith('tick '):
            ticks += 1
            if ticks <= recording.MOST_TICKS:
                steps.append(_plain_step(recording.TICK, ticks))
                steps[-1]['time'] = int(text.split(' ')[1])
        if ticks <= recording.MOST_TICKS:
            steps[-1]['log'].append(['line', place])
    return {'elements': [], 'documents': [], 'handlers': {}, 'lines': lines, 'steps': steps, 'ticks': ticks,
            'lineCount': len(trace.lines), 'firstLine': 0}


def _plain_step(kind, number):
    return {'kind': kind, 'number': number, 'line': 0, 'time': None, 'commands': (0, 0, 0), 'since': [], 'log': [], 'boxes': None}


# --- the script -----------------------------------------------------------------------------------------------------------------

def _script_parts(script, page, notes):
    """The script's lines; of a long script, only those that something points to."""
    texts = script.text.split(b'\n')
    if texts and not texts[-1]:
        texts.pop()
    if len(texts) <= MOST_SCRIPT_LINES and len(script.text) <= MOST_SCRIPT_BYTES:
        return {'script': [shown(text) for text in texts], 'scriptLines': len(texts)}
    wanted = sorted({number for number in _pointed_at(page) if 0 < number <= len(texts)})
    notes.append('Of the %s lines of the script, only those that something points to are shown.' % '{:,}'.format(len(texts)))
    return {'script': {number: shown(texts[number - 1][:400]) for number in wanted}, 'scriptLines': len(texts)}


def _pointed_at(page):
    for line in page['lines']:
        yield line[1] if len(line) > 1 else 0
        for cause in line[3] if len(line) > 3 else ():
            yield cause[0]
        words = line[0].split(' ')
        if words[0] in ('syntax', 'limit'):
            yield int(words[1 if words[0] == 'syntax' else 2])
    for element in page['elements']:
        yield element[2]
    yield from page['handlers'].values()
    for step in page['steps']:
        yield from (step['line'], *step['commands'][:2])
        for item in step['since'] + step['log']:
            if item[0] in ('command', 'handler'):
                yield item[1 if item[0] == 'command' else 2]


def shown(text):
    """The bytes of a line as text, decoded as UTF-8, with a mark for what is invalid or not printable."""
    decoded = text.rstrip(b'\r').decode('utf-8', 'replace')
    if decoded.isprintable():
        return decoded
    return ''.join([letter if letter == '\t' or letter.isprintable() else '\ufffd' for letter in decoded])
