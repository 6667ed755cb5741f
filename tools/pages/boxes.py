"""The boxes of a script: which elements it needs, and their properties as the browser measured them. Every box that matters is placed by
its insets in the nearest box around it that matters too, so that any layout can be told."""
from reference.lengths import GREATEST_WRITTEN, UNITS_PER_PIXEL

SIDES = ('top', 'right', 'bottom', 'left')
NO_EDGES = (0, 0, 0, 0)


def units(length):
    """The nearest number of 1/64 pixels."""
    return int(round(length * UNITS_PER_PIXEL))


def length(number):
    """A length of a script with exactly this many units: two decimal places, which the program truncates to units."""
    size = min(abs(number), GREATEST_WRITTEN)
    hundredths = -(-size * 100 // UNITS_PER_PIXEL)
    text = '%d' % (hundredths // 100) if hundredths % 100 == 0 else ('%d.%02d' % divmod(hundredths, 100)).rstrip('0')
    return '%s%spx' % ('-' if number < 0 and size else '', text)


def document_of(key):
    """The number of the document that a key such as `document 3` names, or None."""
    return int(key.split(' ')[1]) if isinstance(key, str) and key.startswith('document ') else None


class Need:
    """Which elements a script needs: those measured are in its tree; those that matter have a place and a size."""

    def __init__(self, recording):
        self.parents, self.boxes, self.scrolled, self.framed = {}, {}, set(), {}
        for row in recording.rows:
            if row['what'] == 'boxes':
                self._measured(row['boxes'])
            elif row['what'] == 'scroll':
                self.scrolled.add(row['target'])
        self.targets = {'resize': set(), 'intersection': set()}
        for row in recording.rows:
            if row['what'] == 'observe':
                self.targets[recording.observers[row['observer']]['kind']].add(row['element'])
        self.roots = {row['root'] for row in recording.observers.values() if isinstance(row.get('root'), int)}
        self._frames(recording)
        self.around = self._around(recording)
        self.matter = self._matter()
        self.even = {(key, kind) for key, boxes in self.boxes.items() for kind in ('border', 'padding')
                     if all(len(set(box.get(kind, NO_EDGES))) == 1 for box in boxes)}

    def _measured(self, boxes):
        for key, box in boxes.items():
            if document_of(key) is not None:
                if box['scroll'][0] or box['scroll'][1]:
                    self.scrolled.add(key)
                continue
            if box['in'] is not None:
                self.parents.setdefault(int(key), set()).add(box['in'])
            self.boxes.setdefault(int(key), []).append(box)
            if box.get('scroll', NO_EDGES)[0] or box.get('scroll', NO_EDGES)[1]:
                self.scrolled.add(int(key))

    def root_sizes(self, root, recording):
        """The different sizes that the root of an intersection observer had, first to last: of the viewport of its document, or of its box
        inside its borders if it clips."""
        if isinstance(root, int):
            boxes = [box for box in self.boxes.get(root, ()) if 'rect' in box]
            inner = [(box['rect'], box.get('border', NO_EDGES) if 'overflow' in box else NO_EDGES) for box in boxes]
            sizes = [(rect[2] - edges[1] - edges[3], rect[3] - edges[0] - edges[2]) for rect, edges in inner]
        else:
            sizes = [tuple(row['boxes'][root or 'document 0']['viewport']) for row in recording.rows
                     if row['what'] == 'boxes' and (root or 'document 0') in row['boxes']]
        return list(dict.fromkeys(sizes))

    def _frames(self, recording):
        """The documents with elements that matter, by their frames."""
        within = {document_of(key) for parents in self.parents.values() for key in parents if document_of(key) is not None}
        for number in sorted(within):
            frame = recording.documents[number]['frame']
            if frame is not None:
                self.framed.setdefault(frame, []).append(number)

    def _around(self, recording):
        """All that is around targets of intersection observers, which may clip and move them."""
        waiting, found = list(self.targets['intersection']), set()
        while waiting:
            key = waiting.pop()
            number = document_of(key)
            if number is not None:
                frame = recording.documents[number]['frame']
                waiting += [] if frame is None else [frame]
            elif key not in found:
                found.add(key)
                waiting += self.parents.get(key, ())
        return found

    def _matter(self):
        def may_clip(key):
            return key in self.around and any('overflow' in box or box.get('holder') == 'screen' for box in self.boxes.get(key, ()))
        return {key for key in self.boxes if key in self.roots or key in self.framed or key in self.scrolled or may_clip(key)
                or any(key in targets for targets in self.targets.values())}


class Boxes:
    """The page as it was measured last."""

    def __init__(self, recording, need, note):
        self.recording, self.need, self.note = recording, need, note
        self.measured, self.documents = {}, {}

    def take(self, boxes):
        """Takes new measures, and returns the elements whose properties may have changed."""
        changed = set()
        for key, box in boxes.items():
            number = document_of(key)
            if number is None:
                self.measured[int(key)] = box
                changed.add(int(key))
            else:
                self.documents[number] = box
        return [key for key in self.measured if key in changed or self.anchor(key)[0] in changed]

    def name(self, key):
        return self.recording.elements[key]['name']

    def anchor(self, key):
        """(the nearest element around it that matters and isn't a root element, or None; its document)."""
        at = self.measured.get(key, {}).get('in')
        while at is not None and document_of(at) is None:
            box = self.measured.get(at)
            if box is None:
                return None, self.recording.elements[key]['document']
            if at in self.need.matter and document_of(box['in']) is None:
                return at, self.recording.elements[key]['document']
            at = box['in']
        return None, document_of(at) if at is not None else self.recording.elements[key]['document']

    def properties(self, key):
        """The properties of an element that matters, in order."""
        box = self.measured[key]
        if box['in'] is None:
            return {}
        if 'none' in box:
            if box['none'] == 'contents':
                self.note('%s has display: contents, which the script tells as display: none' % self.name(key))
            return {'display': 'none'}
        if document_of(box['in']) is not None:
            return self._root(key, box)
        found = {'display': 'block', 'position': 'absolute', 'box-sizing': 'border-box'}
        left, top = self._place(key, box, found)
        width, height = self._size(key, box)
        found.update(left=length(left), top=length(top), width=length(width), height=length(height))
        return self._edges(key, box, found)

    def _root(self, key, box):
        scroll = self.documents.get(document_of(box['in']), {}).get('scroll', NO_EDGES)
        width, height = self._size(key, box)
        found = {'display': 'block', 'box-sizing': 'border-box', 'margin-left': length(max(0, units(box['rect'][0]) + units(scroll[0]))),
                 'margin-top': length(max(0, units(box['rect'][1]) + units(scroll[1]))), 'width': length(width), 'height': length(height)}
        return self._edges(key, box, found)

    def _place(self, key, box, found):
        """Its left and top within the padding box, or the page or screen, that it is placed in."""
        left, top = units(box['rect'][0]), units(box['rect'][1])
        if box.get('holder') == 'screen':
            found['position'] = 'fixed'
            return left, top
        anchor, document = self.anchor(key)
        if 'holder' in box:
            self._escapes(key, box['holder'])
        if anchor is None:
            scroll = self.documents.get(document, {}).get('scroll', NO_EDGES)
            return left + units(scroll[0]), top + units(scroll[1])
        around = self.measured[anchor]
        if 'rect' not in around:
            return 0, 0
        border, scroll = around.get('border', NO_EDGES), around.get('scroll', NO_EDGES)
        return (left - units(around['rect'][0]) - units(border[3]) + units(scroll[0]),
                top - units(around['rect'][1]) - units(border[0]) + units(scroll[1]))

    def _escapes(self, key, holder):
        """Notes what clips it in the script but not in the page: what is between an out-of-flow element and its containing block."""
        at = self.measured[key]['in']
        while at is not None and document_of(at) is None and at != holder:
            box = self.measured.get(at, {'in': None})
            if at in self.need.matter and key in self.need.around and 'overflow' in box:
                self.note("%s escapes the clip of %s, which isn't its containing block; the script clips it there" % (
                    self.name(key), self.name(at)))
            at = box['in']

    def _size(self, key, box):
        size, is_resized = box['rect'][2:], key in self.need.targets['resize']
        if 'odd' in box:
            self.note('%s is %s: %s' % (self.name(key), box['odd'], 'its size in the script is the one that resize observers are told'
                                        if is_resized and 'sized' in box else 'its box in the script is the rectangle around it'))
        if 'sized' in box and is_resized:
            if key in self.need.targets['intersection']:
                self.note('%s is observed by both kinds, and what it takes up on the screen is not its size in layout: intersections of it '
                          'are told with its size in layout' % self.name(key))
            size = box['sized']
        return units(size[0]), units(size[1])

    def _edges(self, key, box, found):
        is_plain = not ('odd' in box and 'sized' in box and key in self.need.targets['resize'])
        for kind in ('border', 'padding'):
            edges = box.get(kind, NO_EDGES) if is_plain else NO_EDGES
            if (key, kind) in self.need.even:
                found[kind] = length(units(edges[0]))
                continue
            for side, edge in zip(SIDES, edges):
                found['%s-%s' % (kind, side)] = length(units(edge))
        found['overflow'] = self._overflow(key, box)
        return found

    def _overflow(self, key, box):
        given = box.get('overflow', 'visible')
        if key not in self.need.around and key not in self.need.roots and key not in self.need.scrolled:
            return 'visible'
        parts = given.split(' ')
        if len(parts) == 2 and ('clip' in parts or 'visible' in parts) and parts[0] != parts[1]:
            self.note('%s clips along one axis only (overflow: %s); the script clips along both' % (self.name(key), given))
        if 'auto' in parts or 'scroll' in parts:
            return 'auto'
        return 'hidden' if 'hidden' in parts else 'clip' if 'clip' in parts else 'visible'
