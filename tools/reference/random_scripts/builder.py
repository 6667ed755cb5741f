"""Builds a random script command by command: an initial tree, then commands by the weights of a kind, in handlers too."""
from .. import grammar
from ..forms import EVENTS
from .choices import Choices

KEYS = ['k0', 'k1', 'k2', 'k3']


class Builder(Choices):
    """`weights` are those of the kind's commands; any other command has weight 1. `positions` says whether positions and insets
    are used."""

    def __init__(self, chance, version, positions, weights, size):
        Choices.__init__(self, chance, version, positions)
        self.size = size
        self.lines = []
        self.documents, self.blocks, self.images, self.frames = ['top'], [], [], []
        self.parent_of, self.document_of = {}, {}
        self.resize_observers, self.intersection_observers, self.queries = [], [], []
        self.sized, self.scrollers = [], []
        self.handlers = ['h%d' % number for number in range(chance.randrange(2, 9))]
        self.scene_handlers = []          # lists of lines
        self.clock, self.made = 0, 0
        self._weigh(weights)

    def _weigh(self, weights):
        first = grammar.command_names(1)
        commands = first + [name for name in grammar.command_names(self.version) if name not in first]
        every = {name: float(weights.get(name, 0.7 if name in ('block', 'image', 'frame') else 1)) for name in commands}
        self.outer_weights = dict(every, each=0.7, when=0.7, tick=max(3.0, sum(every.values()) / 9))
        inner = dict(every)
        for name in ('ro', 'media', 'block', 'image', 'frame', 'viewport', 'ratio'):
            if name in inner:
                inner[name] = 0.4
        if self.happens(0.6):
            inner.pop('ro')
        inner.pop('tick')
        for name in ('each', 'when', 'say'):
            inner[name] = max(2.0, sum(inner.values()) / 12)
        if self.happens(0.5):
            for name in ('append', 'before', 'remove'):
                inner[name] *= 0.2
        self.inner_weights = inner

    # --- names ------------------------------------------------------------------------------------------------------------

    def line(self, *texts):
        self.lines.extend(texts)

    def fresh(self, letter):
        self.made += 1
        return '%s%d' % (letter, self.made)

    def new(self, letter):
        """A new name, or sometimes one that is taken."""
        name = self.fresh(letter)
        return self.chance.choice(self.blocks) if self.happens(0.01) and self.blocks else name

    def anything(self):
        return self.chance.choice(self.documents + self.blocks[:3] + self.frames[:2] + self.resize_observers[:2]
                                  + self.intersection_observers[:2] + self.queries[:2] + ['nowhere', '$target'])

    def any_name(self):
        name = self.anything()
        return 'nowhere' if name == '$target' else name

    def name_of(self, names):
        return self.chance.choice(names) if names and not self.happens(0.03) else self.any_name()

    def document(self):
        if self.happens(0.015):
            return self.any_name()
        return self.chance.choice(self.documents) if self.happens(0.5) else 'top'

    def block(self):
        return self.chance.choice(self.blocks) if self.blocks else 'r'

    def element(self):
        if self.happens(0.02):
            return self.anything()
        weighted = [(names, weight) for names, weight in ((self.blocks, 6), (self.images, 1), (self.frames, 2)) if names]
        if not weighted:
            return 'r'
        names, weights = zip(*weighted)
        return self.chance.choice(self.chance.choices(names, weights)[0])

    def element_or_document(self):
        return self.document() if self.happens(0.25) else self.element()

    def handler(self):
        return 'nobody' if self.happens(0.01) else self.chance.choice(self.handlers)

    def handler_or_none(self):
        return self.handler() if self.happens(0.7) else '-'

    def listened(self, own):
        """(event target, an event that usually suits it)."""
        if self.happens(0.35):
            listened = '@' + self.chance.choice(self.documents)
        elif self.happens(0.3):
            listened = self.chance.choice(self.documents + self.queries)
        else:
            listened = '@' + self.any_name() if self.happens(0.03) else own or self.element()
        if self.happens(0.1):
            return listened, self.chance.choice(EVENTS)
        if listened.startswith('@'):
            return listened, self.one_of('resize', 'resize', 'scroll', 'error')
        return listened, 'change' if listened in self.queries else 'scroll'

    # --- elements -----------------------------------------------------------------------------------------------------------

    def make(self, kind, attached=True, parent=None, inside=False):
        """An element of this kind, usually with some style, inserted into a parent; those created in handlers aren't used later."""
        parent = parent or self.block()
        document = self.document_of.get(parent, 'top') if self.happens(0.9) else self.document()
        name = self.new(kind[0])
        inner = None
        if kind == 'block':
            self.line('block %s %s' % (name, document))
        elif kind == 'image':
            self.line('image %s %s %s %s' % (name, document, self.length(), self.length()))
        else:
            inner = 'd%d' % self.made
            self.line('frame %s %s %s' % (name, document, inner))
        if not inside and name not in self.document_of:
            self._remember(name, kind, document, inner)
        filled_first = inner is not None and self.happens(0.3)
        if filled_first:
            self.fill(inner, inside)
        self._style_new(name, kind, inside)
        if attached:
            self.line('append %s %s' % (parent, name))
            self.parent_of.setdefault(name, parent)
        if inner is not None and not filled_first and self.happens(0.9):
            self.fill(inner, inside)
        return name

    def _remember(self, name, kind, document, inner):
        self.document_of[name] = document
        {'block': self.blocks, 'image': self.images, 'frame': self.frames}[kind].append(name)
        if inner:
            self.documents.append(inner)

    def _style_new(self, name, kind, inside):
        if self.happens(0.6):
            self.line(self.style(name))
        if kind == 'block' and self.happens(0.5):
            self.line('set %s height %s' % (name, self.length()))
            if not inside:
                self.sized.append(name)

    def fill(self, document, inside=False):
        """A root element for a frame's document, with some blocks in it."""
        name = self.new('b')
        if name in self.document_of:
            return
        self.line('block %s %s' % (name, document), 'append %s %s' % (document, name))
        if inside:
            return
        self._remember(name, 'block', document, None)
        if self.happens(0.5):
            self.line('set %s height %s' % (name, self.length()))
            self.sized.append(name)
        if self.happens(0.3):
            self.scrollers.append(document)
        for _ in range(self.chance.randrange(0, 3)):
            self.make('block', parent=name)

    def make_scroller(self):
        """A block with overflowing content."""
        name = self.make('block', attached=self.happens(0.95))
        if name not in self.document_of:
            return
        self.line('set %s overflow %s' % (name, self.one_of('hidden', 'scroll', 'auto', 'hidden', 'clip')),
                  'set %s height %s' % (name, self.one_of('50px', '100px', '33.33px', '200px')))
        self.scrollers.append(name)
        self.sized.append(name)
        for _ in range(self.chance.randrange(1, 4)):
            inner = self.make('block', parent=name)
            self.line('set %s height %s' % (inner, self.one_of('80px', '150px', '250.5px', '400px')))
            self.sized.append(inner)
            if self.happens(0.3):
                self.line('set %s width %s' % (inner, self.one_of('150%', '1000px', '2000px')))

    def make_chain(self):
        """Nested blocks, up to the depth limit."""
        at = 'r'
        for _ in range(self.one_of(20, 100, 250, 256, 258)):
            name = self.new('b')
            if name in self.document_of:
                continue
            self.line('block %s top' % name, 'append %s %s' % (at, name))
            self._remember(name, 'block', 'top', None)
            at = name

    # --- commands: each writes the lines of one -------------------------------------------------------------------------------

    def command(self, name, inside=None, own=None, level=0):
        """`inside` is the number of the handler that it is in; `own` is `$target` if that is to be preferred."""
        observers = {'ro-': self.resize_observers, 'io-': self.intersection_observers}.get(name[:3], True)
        if not observers and self.happens(0.97):          # nothing to name yet
            if inside is not None:
                return self.line('say s%d' % self.chance.randrange(100))
            name = name[:2]
        if name in ('each', 'when'):
            return self.write_block(name, inside, own, level)
        node = own if own and self.happens(0.75) else self.element()
        if name in ('block', 'image', 'frame'):
            self.make(name, attached=self.happens(0.8), inside=inside is not None)
        elif name == 'post':
            self.write_post(inside)
        elif name in ('ro', 'io', 'media'):
            getattr(self, 'write_' + name)(inside, own)
        else:
            getattr(self, 'write_' + name.replace('-', '_'))(node)

    def pick(self, inside):
        weights = self.inner_weights if inside else self.outer_weights
        return self.chance.choices(list(weights), list(weights.values()))[0]

    def write_block(self, name, inside, own, level):
        if level > 3:
            return
        if name == 'when':
            self.line('when ' + self.condition(own))
            count = self.chance.randrange(0, 3)
        else:
            self.line('each')
            own, count = '$target', self.chance.randrange(1, 4)
        for _ in range(count):
            self.command(self.pick(True), inside, own, level + 1)
        self.line('end')

    def condition(self, own):
        asked = self.chance.choice(['wider', 'taller', 'taller', 'attached']
                                   + (['matches'] if self.queries or self.happens(0.05) else [])
                                   + (['seen', 'seen'] if own or self.happens(0.02) else []))
        node = own if own and self.happens(0.75) else self.element()
        text = {'wider': 'wider %s %s' % (node, self.length()), 'taller': 'taller %s %s' % (node, self.length()),
                'matches': 'matches ' + self.name_of(self.queries), 'attached': 'attached ' + node, 'seen': 'seen'}[asked]
        return ('not ' if self.happens(0.3) else '') + text

    def write_viewport(self, node):
        self.line('viewport ' + self.one_of('800px 600px', '500px 600px', '300px 200px', '1000px 100px', '0px 0px',
                                            '640.5px 480.25px', '%s %s' % (self.length(), self.length())))

    def write_ratio(self, node):
        self.line('ratio ' + self.one_of('100%', '150%', '200%', '33.33%', '0%', '125.5%'))

    def write_append(self, node):
        if self.happens(0.12):
            return self.line('append %s %s' % (self.document(), node))
        self.line('append %s %s' % (self.block() if self.happens(0.93) else self.element(), node))

    def write_before(self, node):
        sibling = self.element()
        parent = self.parent_of.get(sibling)
        if parent is None or self.happens(0.1):
            parent = self.element_or_document()
        self.line('before %s %s %s' % (parent, sibling if self.happens(0.08) else node, sibling))

    def write_remove(self, node):
        self.line('remove ' + node)

    def write_set(self, node):
        self.line(self.style(node))

    def write_grow(self, node):
        if self.sized and node != '$target' and self.happens(0.85):
            node = self.chance.choice(self.sized)
        self.line('grow %s %s %s' % (node, self.one_of('height', 'height', 'height', 'width'),
                                     self.one_of('1px', '10px', '-5px', '0.02px', '50px', '-1000px')))

    def write_load(self, node):
        if not self.images and self.happens(0.9):
            return self.line(self.style(node))
        if self.images and not (node == '$target' and self.happens(0.3)) and self.happens(0.97):
            node = self.chance.choice(self.images)
        self.line('load %s %s %s' % (node, self.length(), self.length()))

    def write_ro(self, inside, own):
        name = self.new('o')
        self.line('ro %s %s %s' % (name, self.document(), self.handler_or_none()))
        if name not in self.resize_observers and inside is None:
            self.resize_observers.append(name)

    def write_ro_observe(self, node):
        boxes = ['content', 'content', 'border'] + (['device'] if self.version == 2 else [])
        self.line('ro-observe %s %s %s' % (self.name_of(self.resize_observers), node, self.chance.choice(boxes)))

    def write_ro_unobserve(self, node):
        self.line('ro-unobserve %s %s' % (self.name_of(self.resize_observers), node))

    def write_ro_disconnect(self, node):
        self.line('ro-disconnect ' + self.name_of(self.resize_observers))

    def write_io(self, inside, own):
        root = self.chance.choices(['-', self.document(), own or self.block()], [45, 20, 35])[0]
        name = self.new('w')
        scroll = ' scroll ' + self.margin() if self.version == 2 and self.happens(0.4) else ''
        text = 'io %s %s %s root %s margin %s%s threshold %s' % (
            name, self.document(), self.handler_or_none(), root, self.margin(), scroll, self.thresholds())
        self.line(' '.join(text.split()))
        if name not in self.intersection_observers and inside is None:
            self.intersection_observers.append(name)

    def write_io_observe(self, node):
        self.line('io-observe %s %s' % (self.name_of(self.intersection_observers), node))

    def write_io_unobserve(self, node):
        self.line('io-unobserve %s %s' % (self.name_of(self.intersection_observers), node))

    def write_io_disconnect(self, node):
        self.line('io-disconnect ' + self.name_of(self.intersection_observers))

    def write_io_take(self, node):
        self.line('io-take ' + self.name_of(self.intersection_observers))

    def write_listen(self, node):
        self.line('listen %s %s %s' % (*self.listened(node), self.handler()))

    def write_unlisten(self, node):
        self.line('unlisten %s %s %s' % (*self.listened(node), self.handler()))

    def write_media(self, inside, own):
        name = self.new('q')
        self.line('media %s %s %s' % (name, self.document(), self.query()))
        if name not in self.queries and inside is None:
            self.queries.append(name)

    def _scroll(self, name, node):
        if node != '$target':
            known = self.scrollers and self.happens(0.7)
            node = self.chance.choice(self.scrollers) if known else self.element_or_document()
        self.line('%s %s %s %s' % (name, node, self.signed_length(), self.signed_length()))

    def write_scroll(self, node):
        self._scroll('scroll', node)

    def write_scroll_by(self, node):
        self._scroll('scroll-by', node)

    def write_raf(self, node):
        self.line('raf %s %s %s' % (self.document(), self.chance.choice(KEYS), self.handler()))

    def write_cancel_raf(self, node):
        self.line('cancel-raf %s %s' % (self.document(), self.chance.choice(KEYS)))

    def write_timer(self, node):
        self.line('timer %s %s %d %s' % (self.document(), self.chance.choice(KEYS), self.one_of(0, 0, 1, 5, 10, 16, 40),
                                         self.handler()))

    def write_clear_timer(self, node):
        self.line('clear-timer %s %s' % (self.document(), self.chance.choice(KEYS)))

    def write_post(self, inside):
        """In a handler, only later handlers are posted, so that no chain is endless."""
        handlers = self.handlers if inside is None else self.handlers[inside + 1:]
        if handlers:
            self.line('post %s %s' % (self.document(), self.chance.choice(handlers)))

    def write_say(self, node):
        self.line('say s%d' % self.chance.randrange(100))

    def write_read(self, node):
        self.line('read ' + (node if node == '$target' else self.element_or_document()))

    def write_tick(self, node=None):
        if self.happens(0.03):
            return self.line('tick %d' % max(0, self.clock - self.one_of(1, 10)))
        self.clock += self.one_of(0, 1, 5, 16, 16, 100)
        self.line('tick %d' % self.clock)
