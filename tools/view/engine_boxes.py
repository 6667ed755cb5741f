"""The boxes of an engine's run, by its model, at the end of each step that a recording has.

Gives to others: `differences(recorded, script, engine)`, for each step of the recording the difference of the engine's boxes from those at
the step before, as boxes.py packs them; None for all of them if they can't be told, and [] if they are those of the recording.
"""
from explain import engines     # also makes the models known
from reference.comparing import TooLong, time_limit
from reference.layout import Layout

from . import boxes, recording

SECONDS = 20                      # of processor time


class _Named:
    """Numbers for the things of another run of the same script: things with the same name have the same number."""

    def __init__(self, things):
        self.things = things
        self.elements = {element.name: element for element in things.elements}
        self.documents = {document.name: document for document in things.documents}
        self.theirs = {}                  # an element's number -> that of the other run

    def element(self, element):
        number = self.things.element(self.elements.setdefault(element.name, element))
        self.theirs[number] = element
        return number

    def document(self, document):
        return self.things.document(self.documents.setdefault(document.name, document))


def _model(script, engine, note):
    """A run of the engine's model; `note` is called with how many ticks have ended, as a tick begins, as it ends and as the run ends."""
    from models.classes import CLASSES
    from models.model import Model

    class Noting(Model):
        ticks = 0

        def tick(self, command, time):
            note(self.world, recording.START, self.ticks)
            try:
                Model.tick(self, command, time)
            finally:
                self.ticks += 1
                note(self.world, recording.TICK, self.ticks)

    model = Noting(script, CLASSES[engine])
    model.run()
    note(model.world, recording.END, model.ticks)


def differences(recorded, script, engine):
    wanted = {(step.kind, step.number): place for place, step in enumerate(recorded.steps) if step.boxes is not None}
    found, named, last = [None] * len(recorded.steps), _Named(recorded.things), [None]

    def note(world, kind, number):
        place = wanted.get((kind, number))
        if place is None:
            return
        now = boxes.state(world, named)
        for element, record in now.elements.items():
            if isinstance(record, str):
                now.elements[element] = _reason(world.layout, named.theirs[element])
        found[place] = boxes.difference(last[0], now)
        last[0] = now

    try:
        with time_limit(SECONDS):
            _model(script, engine, note)
    except TooLong:
        return None
    except Exception:                         # a bug in the model; the page's notes tell it
        return None
    return [] if all(_without_observed(ours) == _without_observed(step.boxes) for ours, step in zip(found, recorded.steps)) else found


def _reason(layout, element):
    """Why an element has no box: by the rules if these give it none, otherwise because of the engine."""
    try:
        return Layout.why_no_box(layout, element)
    except (ValueError, AttributeError):
        return layout.why_no_box(element)


def _without_observed(changed):
    return changed and {part: value for part, value in changed.items() if part != 'observed'}
