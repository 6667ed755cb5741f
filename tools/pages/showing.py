"""The script of a recording, explained and shown with the page's own names for elements, and the places where observers were made."""
import re

from explain import report
from view import data, page

from . import naming

NAME = re.compile(r'`([A-Za-z][A-Za-z0-9_-]*)`')


def own_names(script):
    """The page's own names by the script's."""
    recording = script.recording
    names = {name: recording.elements[key]['name'] for key, name in script.elements.items()}
    for number, name in script.documents.items():
        names[name] = 'the page' if number == 0 else 'the page in %s' % recording.elements[recording.documents[number]['frame']]['name']
    return names


def places(script):
    return {name: naming.place(script.recording.observers[key]['at']) for key, name in script.observers.items()}


def explained(text, script):
    """The lines of the script's trace with their explanations."""
    names, made, lines = own_names(script), places(script), []

    def named(match):
        word = match.group(1)
        if word in made:
            return '`%s` (made at %s)' % (word, made[word])
        return '`%s`' % names.get(word, word)
    trace = report.explained(text.encode())
    for line, _, explanation in trace.lines:
        lines.append(line)
        lines += ['    ' + NAME.sub(named, told) for told in explanation]
    return ['note: ' + note for note in trace.notes] + lines


def view(text, name, script):
    """The page that bin/view writes, with the page's own names for boxes."""
    found, _ = data.of(text.encode(), name)
    names = own_names(script)
    for row in found['elements']:
        row[0] = names.get(row[0], row[0])
    return page.written(found)
