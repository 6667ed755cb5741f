"""Writes a script as a test for the Web Platform Tests harness: plain DOM code, with the standards' sentences that it tests."""
import html
import json
import keyword
import re

import engines
import models
from classes_table import own_classes

# What a line is about: the word it begins with, a sentence of the standard, and its place.
BEHAVIOURS = [
    ('resize', 'Resize Observer: each observer with active targets is called once, with an entry for each of them',
     'https://drafts.csswg.org/resize-observer/#broadcast-active-resize-observations'),
    ('error', 'Resize Observer: if notifications are left that are not deeper than the last, an error is reported at the window',
     'https://drafts.csswg.org/resize-observer/#deliver-resize-error'),
    ('intersect', 'Intersection Observer: an entry is queued if the threshold index or isIntersecting differs from before',
     'https://w3c.github.io/IntersectionObserver/#update-intersection-observations-algo'),
    ('event', 'CSSOM View: the resize, scroll and media query steps fire their events, in this order',
     'https://drafts.csswg.org/cssom-view/#run-the-resize-steps'),
    ('frame', 'HTML: frame callbacks are run in the order of their requests, one update each',
     'https://html.spec.whatwg.org/multipage/imagebitmap-and-animations.html#run-the-animation-frame-callbacks'),
    ('read', 'CSSOM View: getBoundingClientRect() gives the box as it is laid out now',
     'https://drafts.csswg.org/cssom-view/#dom-element-getboundingclientrect'),
]
PAGE = '''<!doctype html>
<meta charset="utf-8">
<title>%(title)s</title>
%(links)s
<script src="/resources/testharness.js"></script>
<script src="/resources/testharnessreport.js"></script>
<body>
<script>
'use strict';
// What the page observes, in order. Each line begins with the word of the behaviour that it belongs to.
const log = [];
const box = element => {
  const { x, y, width, height } = element.getBoundingClientRect();
  return [x, y, width, height].join(' ');
};
// Updates come also where no test asked for one. Such an update disturbs a run if something is observed in it or after it: `late` says how
// much had been observed when it began.
let late = null;
const watch = () => {
  late = late === null ? log.length : late;
  requestAnimationFrame(watch);
};
requestAnimationFrame(watch);
// One update of the rendering, and the tasks that it queues: a second message is behind them. False if the run was disturbed.
const update = () => new Promise(done => requestAnimationFrame(() => {
  late = null;
  const { port1, port2 } = new MessageChannel();
  let messages = 2;
  port1.onmessage = () => {
    messages -= 1;
    if (messages) {
      port2.postMessage(0);
    } else {
      port1.close();
      done(late === null || late === log.length);
    }
  };
  port2.postMessage(0);
}));
const standards = inner => {
  inner.open();
  inner.write('<!doctype html>');
  inner.close();
  inner.documentElement.remove();
  return inner;
};

// One run in a frame of its own, whose root element the test inserts. Returns whether it came to its end undisturbed.
const attempt = async frame => {
  const top = standards(frame.contentDocument);
  top.defaultView.addEventListener('error', event => log.push(`error top ${event.message}`));
%(body)s
  return true;
};
const run = (async () => {
  await new Promise(done => addEventListener('load', done));
  while (performance.now() < %(longest)d) {
    const frame = document.createElement('iframe');
    frame.style.cssText = 'display: block; border: 0; width: %(width)dpx; height: %(height)dpx';
    document.body.append(frame);
    log.length = 0;
    const undisturbed = await attempt(frame);
    const observedNow = log.slice();
    frame.remove();
    if (undisturbed) {
      return observedNow;
    }
  }
  return null;
})();

// The lines of a behaviour. A browser that never left a run undisturbed is neither right nor wrong.
const observed = async word => {
  const lines = await run;
  assert_implements_optional(lines, 'a run without updates that no test asked for');
  return lines.filter(line => line.startsWith(word + ' '));
};
%(tests)s
</script>
'''
TEST = '''
// %(sentence)s.
// %(link)s
promise_test(async () => {
  assert_array_equals(await observed(%(word)s), %(lines)s, %(sentence_text)s);
}, %(name)s);'''
LONGEST = 8000     # how long runs are tried, in milliseconds: less than the harness waits for a test
RESERVED = set('top frame log box update watch late attempt undisturbed standards run observed document window standards entries entry var let const new delete in of do if for while with '
               'this class function return await async typeof void null true false case default try catch throw switch else'.split())


class Plain:
    """The plain code for a script."""

    def __init__(self, script, plan):
        self.script, self.plan, self.docs = script, plan, {'top': 'top'}
        self.lines, self.depth, self.declared = [], 1, {}
        self.homes = {}

    def name(self, word):
        """A script's name as one in the code."""
        if word == '$target':
            return 'entry.target'
        if word == 'top':
            return 'top'
        if word not in self.declared:
            wanted = re.sub(r'[^A-Za-z0-9_]', '_', word)
            while wanted in RESERVED or keyword.iskeyword(wanted) or wanted in self.declared.values():
                wanted += '_'
            self.declared[word] = wanted
        return self.declared[word]

    def say(self, text):
        self.lines.append('  ' * self.depth + text)

    def text(self):
        for name, commands in self.script['handlers'].items():
            self.say('const on_%s = entries => {' % self.name(name))
            self.block(commands)
            self.say('};')
        self.declare()
        for item in self.script['items']:
            self.command(item['op'], item['args'], item.get('body'))
        return '\n'.join(self.lines)

    def declare(self):
        names = [item['args'][0] for item in engines.commands_of(self.script) if item['op'] in ('block', 'image', 'frame', 'ro', 'io', 'media')]
        inner = [item['args'][2] for item in engines.commands_of(self.script) if item['op'] == 'frame']
        if names + inner:
            self.lines.insert(0, '  let %s;' % ', '.join(self.name(name) for name in names + inner))

    def block(self, commands):
        self.depth += 1
        for item in commands:
            self.command(item['op'], item['args'], item.get('body'))
        self.depth -= 1

    def handler(self, word, entries):
        return '' if word == '-' else ' on_%s(%s);' % (self.name(word), entries)

    def command(self, op, args, body):
        method = getattr(self, 'do_' + op.replace('-', '_'), None)
        if method is None:
            raise engines.NotShown('a test with `%s`' % op)
        if op in ('each', 'when'):
            method(args, body)
        else:
            method(*args)

    def make(self, name, document, tag, style):
        self.say("%s = %s.createElement('%s');" % (self.name(name), self.name(document), tag))
        self.say("%s.style.cssText = '%s';" % (self.name(name), style))

    def do_block(self, name, document):
        self.make(name, document, 'div', 'display: flow-root')

    def do_image(self, name, document, width, height):
        self.make(name, document, 'canvas', 'display: block; contain: size; contain-intrinsic-size: %s %s' % (width, height))

    def do_frame(self, name, document, inner):
        self.make(name, document, 'iframe', 'display: block; border: 0')
        self.docs[inner] = name

    def inserted(self, child):
        for inner, frame in self.docs.items():
            if frame == child and inner not in self.homes:
                self.homes[inner] = child
                self.say('%s = standards(%s.contentDocument);' % (self.name(inner), self.name(child)))

    def do_append(self, parent, child):
        self.say('%s.appendChild(%s);' % (self.name(parent), self.name(child)))
        self.inserted(child)

    def do_before(self, parent, child, sibling):
        self.say('%s.insertBefore(%s, %s);' % tuple(map(self.name, (parent, child, sibling))))
        self.inserted(child)

    def do_remove(self, node):
        self.say('%s.remove();' % self.name(node))

    def do_set(self, node, property_, value):
        if property_.startswith('border'):
            value = value + ' solid'
        if (property_, value) == ('display', 'block'):
            value = 'flow-root'
        self.say("%s.style.setProperty('%s', '%s');" % (self.name(node), property_, value))

    def do_grow(self, node, property_, by):
        node = self.name(node)
        self.say("%s.style.%s = `${parseFloat(%s.style.%s) + %s}px`;" % (node, property_, node, property_, by[:-2]))

    def do_ro(self, name, document, handler):
        if document != 'top':
            view = '%s.defaultView.' % self.name(document)
        else:
            view = 'top.defaultView.'
        self.say('%s = new %sResizeObserver(entries => {' % (self.name(name), view))
        self.say("  for (const { target, contentRect } of entries) log.push(`resize %s ${target.id} ${contentRect.width} ${contentRect.height}`);" % name)
        self.say(' %s' % self.handler(handler, 'entries'))
        self.say('});')

    def do_ro_observe(self, name, node, box):
        self.identify(node)
        self.say("%s.observe(%s, { box: '%s-box' });" % (self.name(name), self.name(node), box))

    def identify(self, node):
        if node != '$target':
            self.say("%s.id = '%s';" % (self.name(node), node))

    def do_ro_unobserve(self, name, node):
        self.say('%s.unobserve(%s);' % (self.name(name), self.name(node)))

    do_io_unobserve = do_ro_unobserve

    def do_ro_disconnect(self, name):
        self.say('%s.disconnect();' % self.name(name))

    do_io_disconnect = do_ro_disconnect

    def do_io(self, name, document, handler, _, root, *rest):
        if 'scroll' in rest:
            raise engines.NotShown('a test with a scroll margin')
        cut = rest.index('threshold')
        at = 'top' if root == '-' else self.name(root)
        self.say('%s = new %s.defaultView.IntersectionObserver(entries => {' % (self.name(name), self.name(document)))
        self.say('  for (const { target, isIntersecting } of entries) log.push(`intersect %s ${target.id} ${isIntersecting}`);' % name)
        self.say(' %s' % self.handler(handler, 'entries'))
        self.say("}, { root: %s, rootMargin: '%s', threshold: [%s] });" % (at, ' '.join(rest[1:cut]), ', '.join(rest[cut + 1:])))

    def do_io_observe(self, name, node):
        self.identify(node)
        self.say('%s.observe(%s);' % (self.name(name), self.name(node)))

    def do_listen(self, target, kind, handler):
        at = '%s.defaultView' % self.name(target[1:]) if target[0] == '@' else self.name(target)
        self.say("%s.addEventListener('%s', () => { log.push('event %s %s');%s });" % (at, kind, kind, target, self.handler(handler, '[]')))

    def do_media(self, name, document, query):
        self.say("%s = %s.defaultView.matchMedia('%s');" % (self.name(name), self.name(document), query))

    def do_raf(self, document, key, handler):
        self.say("%s.defaultView.requestAnimationFrame(() => { log.push('frame %s %s');%s });" % (
            self.name(document), document, key, self.handler(handler, '[]')))

    def do_scroll(self, node, x, y):
        at = '%s.defaultView' % self.name(node) if node in self.docs else self.name(node)
        self.say('%s.scrollTo(%s, %s);' % (at, x[:-2], y[:-2]))

    def do_scroll_by(self, node, x, y):
        at = '%s.defaultView' % self.name(node) if node in self.docs else self.name(node)
        self.say('%s.scrollBy(%s, %s);' % (at, x[:-2], y[:-2]))

    def do_viewport(self, width, height):
        self.say("frame.style.cssText += '; width: %s; height: %s';" % (width, height))

    def do_say(self, word):
        self.say("log.push('say %s');" % word)

    def do_read(self, node):
        if node in self.docs:
            raise engines.NotShown('a test that reads a viewport')
        self.say('log.push(`read %s ${box(%s)}`);' % (node, self.name(node)))

    def do_tick(self, time):
        self.say('if (!await update()) return false;')

    def do_each(self, args, body):
        self.say('for (const entry of entries) {')
        self.block(body)
        self.say('}')

    def do_when(self, args, body):
        turned, args = args[0] == 'not', args[1:] if args[0] == 'not' else args
        rects = {'wider': 'width', 'taller': 'height'}
        if args[0] in rects:
            test = '%s.getBoundingClientRect().%s > %s' % (self.name(args[1]), rects[args[0]], args[2][:-2])
        else:
            test = {'seen': 'entry.isIntersecting', 'matches': '%s.matches', 'attached': '%s.parentNode'}[args[0]]
            test = test % self.name(args[1]) if '%s' in test else test
        self.say('if (%s) {' % ('!(%s)' % test if turned else test))
        self.block(body)
        self.say('}')


def observable(lines):
    """The lines of a trace in the form of the test's log: only what a page can observe."""
    told = []
    for line in lines:
        words = line.split(' ')
        if words[0] == 'resize':
            told.append('resize %s %s %s %s' % (words[1], words[2], words[6], words[7]))
        elif words[0] == 'intersect':
            told.append('intersect %s %s %s' % (words[1], words[2], 'true' if words[4] == 'yes' else 'false'))
        elif words[:2] == ['event', 'error']:
            told.append('error %s %s' % (words[2][1:], ' '.join(words[3:])))
        elif words[0] in ('frame', 'say'):
            told.append(line)
        elif words[0] == 'read':
            told.append(' '.join(words[:6]))
    return told


def is_own(text, word, rules):
    """Whether the lines of a behaviour depend on a rule that is the project's own, or left open, by the model of some engine."""
    for engine, classes in models.CLASSES.items():
        kept = {name for name in classes if ' ' in name or name in own_classes()}
        if [line for line in observable(models.run(text, kept).lines) if line.startswith(word + ' ')] != rules:
            return True
    return False


def page(name, text, script, plan):
    """The test, and the words of behaviours that are left out because they depend on an own rule."""
    if any(command['op'] == 'frame' for command in engines.commands_of(script)) and any(
            command['op'] == 'io' and command['args'][4] == '-' for command in engines.commands_of(script)):
        raise engines.NotShown('a test with an implicit root and frames')
    told, tests, links, left_out = observable(models.by_rules(text)), [], [], []
    for word, sentence, link in BEHAVIOURS:
        mine = [line for line in told if line.startswith(word + ' ')]
        if not mine:
            continue
        if is_own(text, word, mine):
            left_out.append(word)
            continue
        links.append('<link rel="help" href="%s">' % link)
        tests.append(TEST % {'sentence': sentence, 'link': link, 'word': engines.in_json(word), 'lines': json.dumps(mine, indent=2).replace('\n', '\n  '),
                             'sentence_text': json.dumps(sentence), 'name': engines.in_json('%s: %s' % (name, sentence.split(':')[1].strip()))})
    if not tests:
        raise engines.NotShown('a test of only what is own: %s' % (', '.join(left_out) or 'nothing that a page observes'))
    return PAGE % {'title': html.escape('%s: %s' % (name, ', '.join(word for word, _, _ in BEHAVIOURS if word not in left_out and any(
        line.startswith(word + ' ') for line in told)))), 'links': '\n'.join(links), 'width': plan['size'][0],
        'height': plan['size'][1], 'longest': LONGEST, 'body': Plain(plan['script'], plan).text(), 'tests': '\n'.join(tests)}
