"""The trace with its explanations set apart, as text or as JSON."""
import json
import textwrap

from reference import lexer
from reference.comparing import TooLong, first_difference, time_limit
from reference.intersection import Entry
from reference.refusals import Limit, Throw
from reference.resize_loop import LoopError

from . import engines, faults, limits, loop_errors, meetings, reasons, runs, source, throws
from .wording import counted, number

WIDTH = 100
NOT_BUILT = "The proved program isn't built, so this is the reference program's trace. bin/build builds the proved one."
MOST_EXPLAINED = 1000             # lines that are explained at length
MOST_REASONS = 100000
OUT_OF_TIME = 3
SECONDS_OF_WATCHING = 20
SECONDS_OF_EXPLAINING = 20


class Trace:
    """The lines of a trace, each with the script's line and its explanation, and sentences on the whole; `predicted` is the engine's trace,
    if one was asked for."""

    def __init__(self, text):
        self.script = source.Script(text)
        self.notes = []
        self.lines, self.status = [], 0       # (text, script's line or None, explanation)
        self.predicted = None
        self.faults = []                      # those of the text, as objects
        self.cures = None                     # (the number of the line that has them, a list of Cure)

    def add(self, text, line=None, explanation=()):
        self.lines.append((text, line, list(explanation)))


def explained(text, run=None, engine=None):
    """The Trace of a script's bytes; `run` is the reference's over it, where that was made already. With the name of an engine it is that
    engine's trace by its model, with what differs from the rules."""
    trace = Trace(text)
    proved = runs.Proved(text) if runs.is_built() else None
    run = run or runs.Reference(text)
    fault = run.told[0].about if run.told and isinstance(run.told[0].about, lexer.Fault) else None
    bad_byte = fault.cause.byte if fault and isinstance(fault.cause, lexer.BadByte) else None
    trace.notes += source.notes(text, bad_byte)
    if proved is None:
        trace.notes.append(NOT_BUILT)
    written = [told.text for told in run.told] if proved is None else proved.lines
    trace.status = run.status if proved is None else proved.status
    if trace.status is None:
        trace.status = OUT_OF_TIME
    trusted = _trusted(trace, proved, run)
    if engine is not None and run.script is not None:
        _explain_predicted(trace, engines.Predicted(text, engine, written), run, trusted)
    else:
        _explain_lines(trace, written, run, trusted)
    return trace


def _trusted(trace, proved, run):
    """How many of the lines the reference explains; notes say why not all."""
    if run.failure:
        trace.notes.append('Nothing is explained: the reference program failed with %s, which is a bug in it.' % run.failure)
        return 0
    if not run.ended:
        trace.notes.append('The reference program was stopped after %d seconds of processor time, so the explanations cover '
                           'only the first %s of the trace.' % (run.seconds, counted(len(run.told), 'line')))
    if proved is None:
        return len(run.told)
    if proved.stopped:
        trace.notes.append('This is only the beginning of the trace: the proved program %s.' % (
            "didn't end within %d seconds" % runs.SECONDS_OF_THE_PROGRAM if proved.status is None
            else 'ended with status %d' % proved.status))
    got, wanted = proved.lines, [told.text for told in run.told]
    whole = run.ended and not proved.stopped
    if not whole:
        common = min(len(got), len(wanted))
        got, wanted = got[:common], wanted[:common]
    if got == wanted and (not whole or proved.status == run.status):
        return len(got)
    trace.notes.append(_why_not(proved, run, got, wanted))
    return 0


def _why_not(proved, run, got, wanted):
    said = 'Nothing is explained: the reference program gives a different answer, so one of the two is wrong. '
    if got == wanted:
        return said + 'The proved program ended with status %d, and the reference program with %d.' % (proved.status, run.status)
    place, *lines = first_difference(got, wanted)
    return said + 'They differ from line %d of the trace on: the proved program has %s, and the reference program %s.' % (
        place, *['`%s`' % line if line else 'nothing more' for line in lines])


class _Explainers:
    """Gives a line's explanation by what the line is about."""

    def __init__(self, trace, run):
        self.script, self.run, self.trace = trace.script, run, trace
        self.commands = throws.Commands(run.script, trace.script) if run.script else None
        self.reasons = reasons.Reasons(self.commands, run.told, run.ended) if run.script else None
        self.loops = None
        self.said = set()                 # sentences on exceptions that needn't be said again
        self.seen = {}                    # an explanation -> the number of the trace's line that has it
        self.count, self.left_out, self.given = 0, 0, 0

    def watch(self):
        """Finds what brought the loop errors."""
        if not any(isinstance(told.about, LoopError) for told in self.run.told):
            return
        try:
            with time_limit(SECONDS_OF_WATCHING):
                self.loops = loop_errors.Explainer(self.script, self.commands, self.run.told)
        except TooLong:
            self.trace.notes.append("The loop errors aren't explained: finding their causes took more than %d seconds."
                                    % SECONDS_OF_WATCHING)

    def keep_cures(self):
        if self.loops is not None and self.loops.cured_at is not None:
            self.trace.cures = self.loops.cured_at, self.loops.all_cures().kept

    def of(self, told, place):
        about = told.about
        if isinstance(about, lexer.Fault):
            others, self.trace.faults = faults.others(about, self.script)
            return faults.explain(about, self.script) + others
        if isinstance(about, (Limit, lexer.TextLimit)):
            return limits.explain(told, self.script, self.run)
        if isinstance(about, Throw):
            return throws.explain(told, self.script, self.commands, self.said)
        if isinstance(about, LoopError):
            return self.loops.explain(told, place) if self.loops else []
        if isinstance(about, tuple) and isinstance(about[1], Entry):
            return meetings.explain(told)
        return []

    def explain(self, place, number_):
        """The explanation of the line at this place, or its reason; `number_` is that of the line in what is written."""
        told = self.run.told[place]
        if told.about is None:
            self.given += 1
            return self.reasons.of(place) if self.reasons and self.given <= MOST_REASONS else []
        if self.count >= MOST_EXPLAINED:
            self.left_out += 1
            return []
        explanation = self.once(told, number_)
        self.count += bool(explanation)
        return explanation

    def once(self, told, place):
        """The explanation, or where the same stands already."""
        if isinstance(told.about, Throw):
            key = (told.text, told.about.sentence)
            if key not in self.seen:
                explanation = self.of(told, place)
        else:
            explanation = self.of(told, place)
            key = tuple(explanation)
        if key in self.seen and (isinstance(told.about, Throw) or len(key) > 2):
            return ['The same as for line %s of this trace.' % number(self.seen[key])]
        self.seen[key] = place
        return explanation


def _explain_lines(trace, written, run, trusted):
    explainers = _Explainers(trace, run)
    explainers.watch()
    for place, text in enumerate(written):
        if place >= trusted:
            is_last = trusted and place == len(written) - 1
            trace.add(text, explanation=limits.beyond(text, trace.script, run) if is_last else ())
            continue
        trace.add(text, run.told[place].line, explainers.explain(place, place + 1))
    explainers.keep_cures()
    if explainers.left_out:
        trace.notes.append('Of the lines of the trace with something to explain at length, only the first %s are explained; there are %s '
                           'more.' % (number(MOST_EXPLAINED), number(explainers.left_out)))


def _explain_predicted(trace, predicted, run, trusted):
    """The engine's lines: those that are the rules' with their explanation, the others with how they differ."""
    if predicted.failure is not None:
        trace.notes.append("There is no trace of %s: %s. This is the rules'." % (engines.ENGINES[predicted.engine], predicted.failure))
        _explain_lines(trace, predicted.rules, run, trusted)
        return
    trace.predicted = predicted
    trace.notes += [predicted.summary()] + predicted.notes
    explainers, seen = _Explainers(trace, run), {}
    explainers.watch()
    for place, text in enumerate(predicted.lines):
        line, explanation = predicted.model.written_at.get(place), []
        if place in predicted.same:
            rule = predicted.same[place]
            if rule < trusted and not (text.startswith('tick ') and predicted.is_busy(place)):
                line, explanation = run.told[rule].line, explainers.explain(rule, place + 1)
        elif predicted.differences[place] is not None:
            explanation = predicted.told(predicted.differences[place], seen, place + 1)
        trace.add(text, line, explanation + _missing(predicted, place + 1, seen))
    explainers.keep_cures()
    if predicted.missing.get(0) and trace.lines:
        trace.lines[0][2][:0] = _missing(predicted, 0, seen)


def _missing(predicted, place, seen):
    """What is said of the rules' lines that the engine's trace lacks before this place."""
    return [line for one in predicted.missing.get(place, ()) for line in predicted.told(one, seen, place)]


# --- writing ----------------------------------------------------------------------------------------------------------------

class Colours:
    """Escapes for a terminal, or none."""

    def __init__(self, on):
        self.note, self.explanation, self.mark, self.plain = ('\x1b[33m', '\x1b[36m', '\x1b[31;1m', '\x1b[0m') if on else (
            '', '', '', '')

    def of(self, line):
        is_mark = line.lstrip().startswith('^')
        return '%s%s%s' % (self.mark if is_mark else self.explanation, line, self.plain)


def text_lines(trace, colours):
    for note in trace.notes:
        for part in _wrapped('note: ' + note):
            yield '    %s%s%s' % (colours.note, part, colours.plain)
    for text, _, explanation in trace.lines:
        yield text
        for line in explanation:
            for part in _wrapped(line):
                yield '    ' + colours.of(part)


def _wrapped(line):
    """A sentence in lines that are easy to read; what is set in, a script's line or a table, stays as it is."""
    return [line] if line.startswith(' ') or len(line) <= WIDTH else textwrap.wrap(line, WIDTH, break_on_hyphens=False)


def json_lines(trace):
    """An object for each line of the trace, and before them one for the notes, where there are some."""
    if trace.notes:
        yield json.dumps({'notes': trace.notes})
    for place, (text, line, explanation) in enumerate(trace.lines, 1):
        told = {'number': place, 'text': text, 'kind': text.split(' ', 1)[0], 'line': line or None}
        if line:
            told['command'] = trace.script.command(line)
        if explanation:
            told['explanation'] = explanation
        if trace.faults and place == 1:
            told['faults'] = trace.faults
        if trace.cures is not None and trace.cures[0] == place:
            told['cures'] = [cure.as_object() for cure in trace.cures[1]]
        if trace.predicted is not None:
            told.update(_prediction(trace.predicted, place - 1))
        yield json.dumps(told)


def _prediction(predicted, place):
    """How a line of an engine's trace differs, and which of the rules' lines it lacks behind it."""
    found, one = {}, predicted.differences[place]
    if one is not None:
        found['difference'] = one.as_object(predicted.rows)
    missing = predicted.missing.get(place + 1, []) + (predicted.missing.get(0, []) if place == 0 else [])
    if missing:
        found['missing'] = [other.as_object(predicted.rows) for other in missing]
    return found
