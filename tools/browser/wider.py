"""Random scripts whose kind is a combination of two parts: `loops+hiding`, for instance.

Each script has a page with frames, some of them nested. A part has a method `begin_PART`, which sets it up, and `do_PART`, which gives a
command for a place between two ticks (`inside` is None) or in the handler of that number. So each two parts meet in every script of their
kind.
"""
import itertools
import random

PARTS = ('loops', 'crossings', 'hiding', 'roots', 'conditions', 'fresh', 'ratios', 'fractions', 'events', 'clips')
KINDS = ['+'.join(pair) for pair in itertools.combinations(PARTS, 2)]
SIZES = ['0px', '1px', '10px', '20px', '40px', '50px', '100px', '300px']
PART_SIZES = ['0.5px', '10.25px', '33.33px', '50.5px', '99.75px', '150.1px']
EDGES = ['0px', '2px', '5px', '10px']
PART_EDGES = ['0.5px', '1.75px', '8.25px', '2.5%', '10%']
RATIOS = ['100%', '200%', '150%', '125%', '250%', '50%', '75%', '300%', '175%', '110%']
OVERFLOWS = ['visible', 'hidden', 'clip', 'scroll', 'auto']
QUERIES = ['(min-width: 400px)', '(max-width: 320px)', '(orientation: portrait)', '(max-height: 100px)', 'not all', '(width: 0px)']
HANDLERS = 4
TICKS = (3, 6)


class Wider:
    def __init__(self, kind, seed):
        self.r = random.Random('%s/%d' % (kind, seed))
        self.parts = kind.split('+')
        self.body, self.count = [], 0
        self.blocks, self.others, self.frames = [], [], []     # names of elements
        self.home = {}                                         # element -> the document that it is created in
        self.inside, self.new = ['top'], []                    # documents that are in the page; those of frames in no tree
        self.ros, self.ios, self.queries = [], [], []
        self.tall = []                                         # blocks with a height in pixels

    # --- words --------------------------------------------------------------------------------------------------------------

    def has(self, part):
        return part in self.parts

    def say(self, *words):
        self.body.append(' '.join(word for word in words if word))

    def name(self, letter):
        self.count += 1
        return letter + str(self.count)

    def size(self):
        return self.r.choice(SIZES + PART_SIZES * self.has('fractions') + ['0.5px', '33.25px'] * self.has('ratios'))

    def edge(self):
        return self.r.choice(EDGES + PART_EDGES * self.has('fractions') + ['1.5px'] * self.has('ratios'))

    def node(self):
        return self.r.choice(self.blocks * 2 + self.others)

    def document(self):
        return self.r.choice(self.inside)

    def handler(self, none=True):
        return self.r.choice((['-'] if none else []) + ['h%d' % number for number in range(HANDLERS)])

    # --- the page -----------------------------------------------------------------------------------------------------------

    def make_block(self, document, parent, sized=0.7):
        name = self.name('b')
        self.say('block', name, document)
        if self.r.random() < sized:
            self.say('set', name, 'height', self.size())
            self.tall.append(name)
        if self.r.random() < 0.2:
            self.say('set', name, 'width', self.r.choice([self.size(), '50%']))
        self.say('append', parent, name)
        self.blocks.append(name)
        self.home[name] = document
        return name

    def make_image(self, document, parent):
        name = self.name('i')
        self.say('image', name, document, self.size(), self.size())
        self.say('append', parent, name)
        self.others.append(name)
        self.home[name] = document
        return name

    def make_frame(self, document, parent):
        name, inner = self.name('f'), self.name('d')
        self.say('frame', name, document, inner)
        if self.r.random() < 0.4:
            self.say('set', name, self.r.choice(['width', 'height']), self.size())
        early = self.has('fresh') and self.r.random() < 0.6
        if early:
            self.fill_fresh(inner)
        self.say('append', parent, name)
        self.inside.append(inner)
        self.frames.append(name)
        self.others.append(name)
        self.home[name] = document
        if not early or self.r.random() < 0.3:
            self.make_root(inner)
        return name

    def make_root(self, document):
        kind = self.r.choice(['block', 'image', 'frame', 'block']) if self.has('roots') and document != 'top' else 'block'
        if kind == 'image':
            root = self.make_image(document, document)
        elif kind == 'frame' and len(self.frames) < 5:
            root = self.make_frame(document, document)
        else:
            root = self.make_block(document, document, 0.3)
            for _ in range(self.r.randrange(0, 3)):
                self.make_block(document, root)
        if self.has('roots') and self.r.random() < 0.6:
            self.say(self.style_of_root(root))
        return root

    def fill_fresh(self, document):
        """What a document has before its frame is in a tree."""
        r = self.r
        root = self.make_block(document, document, 0.5)
        for _ in range(r.randrange(0, 3)):
            self.make_block(document, r.choice([root, root, self.blocks[-1]]))
        if r.random() < 0.3:
            self.say('set', root, 'overflow', r.choice(OVERFLOWS))
        if r.random() < 0.4:
            self.make_resize_observer(document)
        if r.random() < 0.3:
            self.say('raf', document, 'k1', self.handler(False))
        if r.random() < 0.3:
            self.say('listen', '@' + document, 'resize', self.handler(False))

    def page(self):
        r = self.r
        self.make_root('top')
        for _ in range(r.randrange(2, 5)):
            self.make_block('top', r.choice([name for name in self.blocks if self.home[name] == 'top']))
        for _ in range(r.randrange(1, 3)):
            parent = r.choice(self.blocks)
            self.make_frame(self.home[parent], parent)
        for _ in range(r.randrange(0, 3)):
            node = self.node()
            self.say('set', node, r.choice(['padding', 'border', 'margin-top', 'margin-left']), self.edge().replace('%', 'px'))

    # --- parts --------------------------------------------------------------------------------------------------------------

    def make_resize_observer(self, document):
        name = self.name('o')
        self.ros.append(name)
        self.say('ro', name, document, self.handler())
        for _ in range(self.r.randrange(1, 4)):
            self.say('ro-observe', name, self.node(), self.box())

    def box(self):
        return self.r.choice(['content', 'border'] + ['device'] * 3 * self.has('ratios'))

    def begin_loops(self):
        for _ in range(self.r.randrange(2, 5)):
            self.make_resize_observer(self.document())
        for document in self.inside:
            if self.r.random() < 0.5:
                self.say('listen', '@' + document, 'error', self.handler(False))

    def do_loops(self, inside):
        r = self.r
        return r.choice([
            self.growing(), self.growing(),
            'set %s height %s' % (self.node(), self.size()), 'set %s width %s' % (self.node(), r.choice([self.size(), 'auto', '50%'])),
            'ro-observe %s %s %s' % (r.choice(self.ros), self.node(), self.box()), 'ro-unobserve %s %s' % (r.choice(self.ros), self.node()),
            'append %s %s' % (r.choice(self.blocks), self.node()), 'read ' + self.node(), 'ro-disconnect ' + r.choice(self.ros),
            'when taller %s 60px\n%s\nend' % (self.node(), self.growing())] + ['remove ' + self.node()] * (inside is not None))

    def growing(self):
        return 'grow %s height %s' % (self.r.choice(self.tall or self.blocks), self.r.choice(['1px', '10px', '-5px', '40px']))

    def make_intersection_observer(self, document):
        r, name = self.r, self.name('o')
        root = r.choice(['-', '-', 'top', self.node()] + self.inside)
        margin = r.choice(['', '', '10px', '-20px 10px', '10%'] + ['1.5px', '2.25%'] * self.has('fractions'))
        threshold = r.choice(['', '0', '0 0.5 1', '0.25', '1'])
        if r.random() < 0.05:
            margin, threshold = r.choice([('0', ''), ('5px 0 1px', '0'), ('', '1.5'), ('10px', '-0.1'), ('5', '2')])
        self.ios.append(name)
        self.say('io', name, document, self.handler(), 'root', root, 'margin', margin, 'threshold', threshold)
        for _ in range(r.randrange(1, 4)):
            self.say('io-observe', name, self.node())

    def begin_crossings(self):
        for _ in range(self.r.randrange(2, 5)):
            self.make_intersection_observer(self.document())

    def do_crossings(self, inside):
        r = self.r
        return r.choice(['io-observe %s %s' % (r.choice(self.ios), self.node()), 'io-unobserve %s %s' % (r.choice(self.ios), self.node()),
                         'io-take ' + r.choice(self.ios), 'remove ' + self.node(), 'append %s %s' % (r.choice(self.blocks), self.node()),
                         self.scrolling(), self.scrolling(), 'set %s height %s' % (self.node(), self.size())])

    def scrolling(self):
        return '%s %s %dpx %dpx' % (self.r.choice(['scroll', 'scroll-by']), self.r.choice([self.node(), self.node()] + self.inside),
                                    self.r.choice([0, 10]), self.r.choice([0, 10, 35, 100, 400, -20]))

    def begin_hiding(self):
        for frame in self.frames:
            if self.r.random() < 0.3:
                self.say('set', frame, 'display', 'none')

    def do_hiding(self, inside):
        r = self.r
        hidden = r.choice(self.frames * 2 + self.blocks)
        return r.choice(['set %s display none' % hidden, 'set %s display block' % hidden, 'set %s display none' % r.choice(self.frames),
                         'set %s display block' % r.choice(self.frames), 'set %s width %s' % (r.choice(self.frames), self.size()),
                         'read ' + r.choice(self.inside + self.blocks), self.scrolling()])

    def style_of_root(self, root):
        r = self.r
        return 'set %s %s' % (root, r.choice(
            ['margin %s' % self.edge(), 'padding %s' % self.edge(), 'width %s' % self.size(), 'height %s' % self.size(), 'width 50%',
             'height 100%', 'height auto', 'display none', 'display block', 'overflow hidden', 'overflow clip', 'border 2px'] +
            ['position absolute', 'position relative', 'position fixed', 'left 10px', 'top 5px', 'right 20px'] * self.second()))

    def begin_roots(self):
        for _ in range(self.r.randrange(1, 3)):
            self.say(self.style_of_root(self.r.choice(self.blocks[:1] + self.blocks)))

    def do_roots(self, inside):
        r, document = self.r, self.document()
        root = r.choice(self.blocks + self.others)
        return r.choice([self.style_of_root(self.blocks[0]), self.style_of_root(root), 'remove ' + root, 'append %s %s' % (document, root),
                         'read ' + root, 'read ' + document, self.scrolling()])

    def begin_conditions(self):
        if not self.ros:
            self.make_resize_observer(self.document())
        if not self.ios:
            self.make_intersection_observer(self.document())
        self.make_query(self.document())

    def do_conditions(self, inside):
        r = self.r
        if inside is None:
            return self.growing()
        new = self.name('n')
        turned = r.choice(['', 'not '])
        condition = turned + r.choice(['wider %s 100px' % self.node(), 'taller %s 30px' % self.node(), 'attached ' + self.node(),
                                       'matches ' + r.choice(self.queries)])
        act = r.choice(['set $target height %s' % self.size(), 'say w1', 'read $target', 'grow $target height 5px'])
        return r.choice([
            'each\n%s\nend' % act, 'each\nwhen %sseen\n%s\nend\nend' % (turned, act), 'when %s\nsay w2\nend' % condition,
            'ro %s %s %s\nro-observe %s %s content' % (new, self.document(), self.handler(), new, self.node()),
            'io %s %s %s root - margin threshold\nio-observe %s %s' % (new, self.document(), self.handler(), new, self.node()),
            'block %s %s\nappend %s %s' % (new, self.document(), r.choice(self.blocks), new),
            'each\nwhen wider $target 50px\nset $target width 40px\nend\nend'])

    def begin_fresh(self):
        document, frame = self.name('d'), self.name('f')
        self.say('frame', frame, 'top', document)
        self.fill_fresh(document)
        self.new.append(frame)
        self.frames.append(frame)
        self.home[frame] = 'top'
        self.others.append(frame)

    def do_fresh(self, inside):
        r, frame = self.r, self.r.choice(self.new + self.frames)
        return r.choice(['append %s %s' % (r.choice(self.blocks), frame), 'remove ' + frame, 'read ' + self.node(),
                         'append %s %s' % (r.choice(self.blocks), self.node()), 'set %s height %s' % (self.node(), self.size())])

    def begin_ratios(self):
        if self.r.random() < 0.5:
            self.body.insert(0, 'ratio ' + self.r.choice(RATIOS))
        if not self.ros and self.r.random() < 0.7:
            self.make_resize_observer(self.document())

    def do_ratios(self, inside):
        if inside is None and self.r.random() < 0.5:
            return 'ratio ' + self.r.choice(RATIOS)
        return self.r.choice(['set %s height %s' % (self.node(), self.size()), 'set %s margin-top %s' % (self.node(), self.edge()),
                              'set %s border %s' % (self.node(), self.edge().replace('%', 'px')), 'read ' + self.node(), self.scrolling()])

    def begin_fractions(self):
        if self.r.random() < 0.4:
            self.body.insert(0, 'viewport %s %s' % (self.r.choice(['400.5px', '800.25px', '640px']), self.r.choice(['300.5px', '599.75px'])))
        for _ in range(self.r.randrange(1, 4)):
            self.say('set', self.node(), self.r.choice(['width', 'height', 'margin-left', 'padding-top']), self.r.choice(PART_SIZES))

    def do_fractions(self, inside):
        r = self.r
        if inside is None and r.random() < 0.15:
            return 'viewport %s %s' % (r.choice(['400.5px', '800.25px', '500px', '640.75px']), r.choice(['300.5px', '599.75px', '400px']))
        return r.choice(['set %s %s %s' % (self.node(), r.choice(['width', 'height', 'margin-top', 'padding', 'margin-left']),
                                           r.choice(PART_SIZES)), 'set %s border %s' % (self.node(), r.choice(['0.5px', '1.5px', '2px'])),
                         'read ' + self.node(), 'read ' + self.document(),
                         'scroll %s 0px %s' % (r.choice([self.node()] + self.inside), r.choice(['10.5px', '3.25px', '20px']))])

    def make_query(self, document):
        name = self.name('q')
        self.queries.append(name)
        self.say('media', name, document, self.r.choice(QUERIES))
        self.say('listen', name, 'change', self.handler(False))

    def begin_events(self):
        for _ in range(self.r.randrange(1, 4)):
            self.make_query(self.document())
        for _ in range(self.r.randrange(1, 4)):
            self.say(self.listening())

    def listening(self):
        document = self.document()
        target = self.r.choice(['@%s resize' % document, '@%s scroll' % document, '%s scroll' % document, '%s scroll' % self.node()])
        return 'listen %s %s' % (target, self.handler(False))

    def do_events(self, inside):
        r, document = self.r, self.document()
        later = inside + 1 if inside is not None else 0
        return r.choice([self.listening(), self.scrolling(), self.scrolling(), 'raf %s k%d %s' % (document, r.randrange(3), self.handler(False)),
                         'timer %s k%d %d %s' % (document, r.randrange(3), r.choice([0, 10, 16]), self.handler(False)),
                         'post %s h%d' % (document, r.randrange(later, HANDLERS)) if later < HANDLERS else 'say w3',
                         'set %s width %s' % (r.choice(self.frames), self.size()), 'set %s height %s' % (self.node(), self.size()),
                         'say w%d' % r.randrange(4)])

    def begin_clips(self):
        r = self.r
        for _ in range(r.randrange(2, 5)):
            self.say('set', r.choice(self.blocks), 'overflow', r.choice(OVERFLOWS[1:]))
        for _ in range(r.randrange(1, 4)):
            self.say('set', self.node(), r.choice(['margin-top', 'margin-left']), r.choice(['60px', '150px', '700px', '900px']))
        for _ in range(r.randrange(0, 4) * self.second()):
            self.say('set', r.choice(self.blocks[1:] + self.others), 'position', r.choice(['relative', 'absolute', 'fixed']))
        if not self.ios:
            self.make_intersection_observer(self.document())

    def do_clips(self, inside):
        r = self.r
        return r.choice(['set %s overflow %s' % (r.choice(self.blocks), r.choice(OVERFLOWS)), self.scrolling(), 'set %s %s %s' % (
            self.node(), r.choice(['margin-top', 'margin-left']), r.choice(['0px', '60px', '150px', '700px'])), 'set %s %s %s' % (
                self.node(), r.choice(['width', 'height']), self.size())] + ['set %s %s %s' % (
                    r.choice(self.blocks[1:] + self.others), r.choice(['left', 'top', 'right', 'bottom']),
                    r.choice(['-60px', '0px', '50px', '10%', 'auto']))] * self.second())

    # --- the script ---------------------------------------------------------------------------------------------------------

    def second(self):
        """Whether the script is of version 2, which has positions, ratios and boxes in device pixels."""
        return self.has('ratios') or self.has('clips') or self.has('roots') and not self.has('fresh')

    def command(self, inside=None):
        return getattr(self, 'do_' + self.r.choice(self.parts))(inside)

    def text(self):
        r = self.r
        self.page()
        for part in self.parts:
            getattr(self, 'begin_' + part)()
        if not self.ros and not self.ios and r.random() < 0.6:
            r.choice([self.make_resize_observer, self.make_intersection_observer])(self.document())
        time = 0
        for _ in range(r.randrange(*TICKS)):
            self.say('tick', str(time))
            time += r.choice([16, 16, 10])
            for _ in range(r.randrange(1, 5)):
                self.say(self.command())
        self.say('tick', str(time))
        self.say('tick', str(time + 16))
        heads = []
        for number in range(HANDLERS):
            heads += ['handler h%d' % number] + [self.command(number) for _ in range(r.randrange(0, 4))] + ['end']
        return '\n'.join(['script 2' if self.second() else 'script 1'] + heads + self.body) + '\n'
