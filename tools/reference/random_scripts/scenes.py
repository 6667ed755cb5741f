"""Scenes: short sequences around an interaction that random commands rarely produce. Each adds its lines to a builder."""


def _put(build, name, document='top', parent=None, *styles):
    """A block with these styles, as a child of a parent or as a document's root element."""
    build.line('block %s %s' % (name, document))
    for style in styles:
        build.line('set %s %s' % (name, style))
    if parent:
        build.line('append %s %s' % (parent, name))
        build.parent_of[name] = parent
    build.document_of[name] = document
    build.blocks.append(name)


def _handler(build, *lines):
    """A new handler with these lines; ` / ` separates lines within a text, and empty texts are left out."""
    name = build.fresh('z')
    body = [line for text in lines if text for line in text.split(' / ')]
    build.scene_handlers.append(['handler ' + name] + body + ['end'])
    return name


def _several(build, least, most, act):
    """The lines of some random actions."""
    return [line for _ in range(build.chance.randrange(least, most + 1)) for line in act().split(' / ')]


def _frame(build, parent='r', document='top', height=None):
    """A frame with a root element in its document; returns their names (frame, document, root element)."""
    frame, root = build.fresh('f'), build.fresh('b')
    inner = 'd' + frame[1:]
    build.line('frame %s %s %s' % (frame, document, inner))
    build.document_of[frame] = document
    build.frames.append(frame)
    build.documents.append(inner)
    first = build.happens(0.7)
    if first:
        build.line('append %s %s' % (parent, frame))
    _put(build, root, inner, inner)
    if not first:
        build.line('append %s %s' % (parent, frame))
    if height:
        build.line('set %s height %s' % (root, height))
    return frame, inner, root


def _observe(build, observer, nodes, most=3):
    for node in build.chance.sample(nodes, build.chance.randrange(1, most + 1)):
        build.line('ro-observe %s %s %s' % (observer, node, build.one_of('content', 'border')))


def sizes(build):
    """Sizes that depend on box-sizing, minimum, maximum, percentages and edges."""
    outer, middle, inner, image = build.fresh('b'), build.fresh('b'), build.fresh('b'), build.fresh('i')
    _put(build, outer, 'top', 'r', 'width 300px', 'height 200px')
    _put(build, middle, 'top', outer)
    _put(build, inner, 'top', middle, 'height ' + build.one_of('10px', '50%', 'auto'))
    build.line('image %s top 90px 45.5px' % image, 'append %s %s' % (build.one_of(outer, middle), image))
    build.images.append(image)
    build.document_of[image] = 'top'
    elements = [outer, middle, inner, image]
    for _ in range(build.chance.randrange(5, 14)):
        build.line('set %s %s' % (build.one_of(middle, middle, inner, image, outer), _size_style(build)))
        if build.happens(0.7):
            build.line('read ' + build.chance.choice(elements))
    build.line(*['read ' + element for element in elements])


def _size_style(build):
    axis, side = build.one_of('width', 'height'), build.one_of('top', 'left', 'right', 'bottom')
    return build.one_of(
        'box-sizing border-box', 'box-sizing border-box', 'box-sizing content-box',
        'min-%s %s' % (axis, build.one_of(build.length(), build.percent(), '150px')),
        'max-%s %s' % (axis, build.one_of(build.length(), build.percent(), '25px', 'none')),
        'padding ' + build.one_of('7px', '5%', '12.5px', '0.02px'), 'padding-%s %s' % (side, build.one_of('30px', '11%')),
        'border ' + build.one_of('3px', '0.5px', '20px'), 'margin-%s %s' % (side, build.one_of('13px', '9%')),
        '%s %s' % (axis, build.one_of('50%', '80px', 'auto', build.length())))


def depths_that_fall(build):
    """An earlier observer's callback moves a later one's target, so that a round isn't deeper than the one before."""
    grown, moved, home, deep = [build.fresh('b') for _ in range(4)]
    _put(build, grown, 'top', 'r', 'height 10px')
    _put(build, home, 'top', 'r')
    _put(build, deep, 'top', home)
    _put(build, moved, 'top', build.one_of(home, deep), 'height ' + build.length(), 'width ' + build.length())
    out = _handler(
        build, 'when not taller %s %dpx' % (grown, build.one_of(11, 15, 25, 60)),
        'grow %s height %dpx' % (grown, build.one_of(1, 5)), 'end',
        build.one_of('remove ' + moved, 'append r ' + moved, 'append %s %s' % (grown, moved),
                     'before r %s %s' % (moved, home), 'remove ' + home, 'before r %s %s' % (home, grown)),
        build.one_of('', '', 'set %s width %s' % (moved, build.length())))
    back = _handler(
        build, build.one_of('append %s %s' % (home, moved), 'append %s %s' % (deep, moved), 'remove ' + moved,
                            'append r ' + home, ''),
        build.one_of('', 'grow %s height 1px' % moved, 'read ' + moved))
    first, second = build.fresh('o'), build.fresh('o')
    for observer, handler in build.chance.sample([(first, out), (second, back)], 2):
        build.line('ro %s top %s' % (observer, handler))
    build.resize_observers += [first, second]
    build.line('ro-observe %s %s content' % (first, grown))
    build.line('ro-observe %s %s %s' % (second, moved, build.one_of('content', 'border')))
    if build.happens(0.3):
        build.line('ro-observe %s %s content' % (build.one_of(first, second), deep))


def observers_of_one_another(build):
    """Callbacks that observe, unobserve and disconnect each other's targets."""
    nodes, observers = [build.fresh('b') for _ in range(3)], [build.fresh('o') for _ in range(3)]
    parent = 'r'
    for node in nodes:
        _put(build, node, 'top', parent, 'height ' + build.length())
        parent = build.one_of('r', node)

    def act():
        observer, node = build.chance.choice(observers), build.chance.choice(nodes)
        observe = 'ro-observe %s %s %s' % (observer, node, build.one_of('content', 'border'))
        return build.one_of(
            observe, observe, observe, 'ro-unobserve %s %s' % (observer, node), 'ro-disconnect ' + observer,
            'set %s height %s' % (node, build.length()), 'each / ro-unobserve %s $target / end' % observer,
            'each / ro-observe %s $target border / end' % observer, 'each / set $target height %s / end' % build.length(),
            'when not taller %s 90px / grow %s height 20px / end' % (node, node), 'read ' + node)
    for observer in observers:
        body = _several(build, 0, 3, act)
        build.line('ro %s top %s' % (observer, _handler(build, *body) if body else '-'))
    build.resize_observers += observers
    for observer in observers:
        _observe(build, observer, nodes)


def documents_that_die(build):
    """A document ends in the middle of a part of an update."""
    frame, document, root = _frame(build, height='900px')
    inner = build.fresh('b')
    _put(build, inner, document, root, 'height 20px')
    ending = build.one_of('remove ' + frame, 'append r ' + frame, 'remove ' + frame, 'remove ' + frame,
                          'before r %s %s' % (frame, frame), 'set %s display none' % frame)
    killer = _handler(build, build.one_of('say a', 'read ' + document, ''), ending,
                      build.one_of('say b', 'read ' + root, 'append nowhere r', ''))
    after = _handler(build, 'say after', 'read ' + root)
    queries = [build.fresh('q'), build.fresh('q')]
    for name in queries:
        build.line('media %s %s %s' % (name, document, build.one_of('(min-height: 100px)', '(orientation: portrait)')))
    build.queries += queries
    part = build.one_of('resize', 'scroll', 'change', 'raf', 'timer', 'post', 'ro', 'ro', 'io', 'io')
    if part in ('resize', 'scroll', 'change') and build.happens(0.7):
        build.write_tick()
    if part == 'scroll':
        build.line('scroll %s 0px %s' % (document, build.one_of('100px', '900px')))
        build.scrollers.append(document)
    if build.happens(0.6) or part in ('resize', 'change'):
        build.line('set %s height %s' % (frame, build.one_of('80px', '90px', '400px')))
    nodes = [root, inner, frame]
    _call_in(build, part, killer, document, nodes, queries[0], 'ka')
    _call_in(build, part, after, document, nodes, queries[1], 'kb')
    for _ in range(build.chance.randrange(0, 3)):
        _call_in(build, build.one_of('resize', 'scroll', 'change', 'post'), after, document, nodes, queries[1], 'kb')
    _after_a_death(build, frame, document, root, queries[0], after)


def _call_in(build, part, handler, document, nodes, queries, key):
    """Makes one part of the next update call a handler."""
    if part == 'resize':
        build.line('listen @%s resize %s' % (document, handler))
    elif part == 'scroll':
        build.line('listen %s scroll %s' % (build.one_of(document, '@' + document), handler))
    elif part == 'change':
        build.line('listen %s change %s' % (queries, handler))
    elif part == 'raf':
        build.line('raf %s %s %s' % (document, key, handler))
    elif part == 'timer':
        build.line('timer %s %s 5 %s' % (document, key, handler))
    elif part == 'post':
        build.line('post %s %s' % (document, handler))
    elif part == 'ro':
        observer = build.fresh('o')
        build.resize_observers.append(observer)
        build.line('ro %s %s %s' % (observer, document, build.one_of(handler, handler, '-')))
        _observe(build, observer, nodes)
    else:
        observer = build.fresh('w')
        build.intersection_observers.append(observer)
        build.line('io %s %s %s root %s margin threshold 0' % (
            observer, build.one_of(document, document, 'top'), handler, build.one_of(document, nodes[0], '-')))
        for node in build.chance.sample(nodes, build.chance.randrange(1, 4)):
            build.line('io-observe %s %s' % (observer, node))


def _after_a_death(build, frame, document, root, queries, handler):
    """What remains of a document that may have ended, and of one whose frame is inserted again."""
    build.clock += 5
    build.write_tick()
    if build.happens(0.3):
        build.line('append r ' + frame)
    build.write_tick()
    for key in ('ka', 'kb'):
        build.line('raf %s %s %s' % (document, key, handler), 'timer %s %s 0 %s' % (document, key, handler))
    build.line('read ' + document)
    if build.happens(0.5):
        build.line('append r ' + frame, 'read ' + document, 'read ' + frame, 'when matches ' + queries, 'say still', 'end')


def documents_that_begin(build):
    """Documents that become Active with things pending in them, during an update or before it."""
    frames = [build.fresh('f'), build.fresh('f')]
    documents = ['d' + frame[1:] for frame in frames]
    root, inner, target = build.fresh('b'), build.fresh('b'), build.fresh('b')
    build.line('frame %s top %s' % (frames[0], documents[0]))
    _put(build, root, documents[0], documents[0], 'height ' + build.one_of('30px', '50%', '100%', '700px'))
    build.line('frame %s %s %s' % (frames[1], documents[0], documents[1]), 'append %s %s' % (root, frames[1]))
    build.frames += frames
    build.document_of[frames[0]], build.document_of[frames[1]] = 'top', documents[0]
    build.documents += documents
    _put(build, inner, documents[1], documents[1], 'height ' + build.one_of('10px', '50%'))
    _put(build, target, 'top', inner, 'height 20px')
    born = _handler(build, 'say born', 'read ' + target)
    put = _handler(build, 'append r ' + frames[0], build.one_of('', 'read ' + target, 'remove ' + frames[1]))
    queries, resize, watch = build.fresh('q'), build.fresh('o'), build.fresh('w')
    build.queries.append(queries)
    build.resize_observers.append(resize)
    build.intersection_observers.append(watch)
    build.line('media %s %s (min-width: 200px)' % (queries, documents[1]), 'listen %s change %s' % (queries, born))
    for document in documents:
        build.line('raf %s ka %s' % (document, born), 'timer %s ka 5 %s' % (document, born), 'post %s %s' % (document, born))
    build.line('ro %s %s %s' % (resize, build.chance.choice(documents), born), 'ro-observe %s %s content' % (resize, inner))
    build.line('io %s %s %s root %s margin threshold' % (watch, documents[1], born, build.one_of('-', documents[1], inner)),
               'io-observe %s %s' % (watch, target))
    build.line(*build.one_of(['append r ' + frames[0]], ['raf top kz ' + put], ['timer top kz 0 ' + put],
                             ['post top ' + put], ['listen @top resize ' + put, 'viewport 700px 500px']))
    build.write_tick()
    build.write_tick()
    build.line('read ' + target)


def queues_between(build):
    """Roots removed, queues taken and targets dropped between an update and its notify task."""
    document, root, frame = 'top', 'r', None
    if build.happens(0.6):
        frame, document, root = _frame(build, height='400px')
    box, targets = build.fresh('b'), [build.fresh('b') for _ in range(3)]
    watches = [build.fresh('w') for _ in range(3)]
    _put(build, box, document, root, 'height 50px', 'overflow ' + build.one_of('visible', 'hidden', 'auto', 'clip'),
         'border ' + build.one_of('0px', '4px', '10px'))
    if build.happens(0.3):
        build.line('set %s display none' % box)
    for target in targets:
        _put(build, target, document, box, 'height ' + build.one_of('20px', '30px', '0px', '45.5px'))

    def act():
        watch, target = build.chance.choice(watches), build.chance.choice(targets)
        return _act_on_queues(build, watch, target, box, root, frame or target, document)
    _make_watches(build, watches, targets, act, (box, root, document))
    for _ in range(build.chance.randrange(1, 4)):
        if build.happens(0.6):                        # a task before the notify task
            build.line('post top ' + _handler(build, *_several(build, 1, 2, act)))
        build.write_tick()
        build.line(*_several(build, 1, 3, act))
    build.write_tick()


def _act_on_queues(build, watch, target, box, root, removed, document):
    return build.one_of(
        'remove ' + box, 'append %s %s' % (root, box), 'io-take ' + watch, 'io-disconnect ' + watch,
        'io-unobserve %s %s' % (watch, target), 'io-observe %s %s' % (watch, target),
        'set %s display %s' % (target, build.one_of('none', 'block')),
        'scroll %s 0px %s' % (box, build.one_of('0px', '20px', '90px')), 'remove ' + removed,
        'each / when seen / io-unobserve %s $target / end / end' % watch, 'each / when not seen / say gone / end / end',
        'each / read $target / append %s $target / end' % build.one_of(box, root),
        'post %s %s' % (build.one_of('top', document), _handler(build, 'say posted')))


def _make_watches(build, watches, targets, act, places):
    box, root, document = places
    for watch in watches:
        body = _several(build, 0, 2, act)
        build.line('io %s %s %s root %s margin %s threshold %s' % (
            watch, build.one_of('top', document), _handler(build, *body) if body else '-',
            build.one_of(box, box, root, document, '-'), build.one_of('', '10px', '-5px', '20%', '0px 5px'),
            build.thresholds()))
    build.intersection_observers += watches
    for watch in watches:
        for target in build.chance.sample(targets, build.chance.randrange(1, 4)):
            build.line('io-observe %s %s' % (watch, target))


def keys_that_come_back(build):
    """Timers, frame callbacks, tasks and listeners that clear and renew each other."""
    other, handlers = _handler(build, 'say other'), []

    def act():
        key, handler = build.one_of('ka', 'kb', 'kc'), build.chance.choice(handlers or [other])
        return build.one_of(
            'cancel-raf top ' + key, 'raf top %s %s' % (key, other), 'cancel-raf top %s / raf top %s %s' % (key, key, other),
            'clear-timer top ' + key, 'timer top %s 0 %s' % (key, other),
            'clear-timer top %s / timer top %s %d %s' % (key, key, build.one_of(0, 5), other), 'post top ' + other,
            'viewport %s 300px' % build.length(), 'unlisten @top resize ' + handler, 'listen @top resize ' + handler,
            'unlisten @top resize %s / listen @top resize %s' % (handler, handler), 'say x', 'append nowhere r')
    for _ in range(4):
        handlers.append(_handler(build, *_several(build, 1, 3, act)))
    for handler in handlers:
        build.line('listen @top resize ' + handler)
    for key in build.chance.sample(['ka', 'kb', 'kc'], 3):
        build.line('raf top %s %s' % (key, build.chance.choice(handlers)))
        build.line('timer top %s %d %s' % (key, build.one_of(0, 0, 5), build.chance.choice(handlers)))
    build.line('post top ' + build.chance.choice(handlers), 'post top ' + build.chance.choice(handlers))
    if build.happens(0.7):
        _queries_that_make_queries(build, other, handlers[0])
    for _ in range(build.chance.randrange(2, 4)):
        build.write_tick()
        build.line('viewport ' + build.one_of('100px 500px', '500px 100px', '%s %s' % (build.length(), build.length())))
    build.write_tick()


def _queries_that_make_queries(build, other, handler):
    first, second, later = build.fresh('q'), build.fresh('q'), build.fresh('q')
    build.queries += [first, second]
    maker = _handler(
        build, 'media %s top (orientation: portrait)' % later, 'listen %s change %s' % (later, other),
        'viewport ' + build.one_of('100px 500px', '500px 100px', '700px 700px'),
        build.one_of('', 'when matches %s / say portrait / end' % later))
    for name in (first, second):
        build.line('media %s top %s' % (name, build.one_of('(min-width: 300px)', '(orientation: portrait)',
                                                           '(max-height: 200px)')))
    build.line('listen %s change %s' % (first, maker), 'listen %s change %s' % (second, build.one_of(other, handler)))


def scrolls_that_wait(build):
    """Pending scroll events whose targets move or cease to be scroll containers."""
    frame, document, root = _frame(build, height='700px')
    build.make_scroller()
    box, inner = build.fresh('b'), build.fresh('b')
    _put(build, box, build.one_of('top', document), build.one_of('r', root), 'height 60px', 'overflow auto',
         'border ' + build.one_of('0px', '5px'), 'padding ' + build.one_of('0px', '2.5px'))
    _put(build, inner, 'top', box, 'height 500px', 'width 2000px')
    build.scrollers += [box, document]
    mover = _handler(build, build.one_of('scroll-by %s 0px 10px' % box, 'scroll %s 0px 0px' % box,
                                         'append %s %s' % (build.one_of('r', root), box), 'remove ' + box),
                     build.one_of('', 'read ' + box, 'scroll %s 0px 20px' % document))
    again = _handler(build, 'read ' + document, 'scroll-by %s 0px 5px' % document)
    build.line('listen %s scroll %s' % (box, mover), 'listen %s scroll %s' % (document, again),
               'listen @%s scroll %s' % (document, build.one_of(mover, _handler(build, 'say window'))))

    def act():
        return build.one_of(
            'scroll %s 30px 40px' % box, 'scroll %s 0px 100px' % document, 'scroll %s 0px 60px' % root,
            'append %s %s' % (build.one_of('r', root), box), 'remove ' + box,
            'set %s overflow %s' % (box, build.one_of('visible', 'clip', 'hidden', 'auto')),
            'set %s height %s' % (inner, build.length()), 'read ' + box, 'read ' + inner,
            'scroll-by %s -5px 15px' % box, 'set %s height %s' % (frame, build.length()))
    for _ in range(build.chance.randrange(2, 5)):
        build.line(*_several(build, 1, 3, act))
        build.write_tick()
    build.line('read ' + box)
    if build.happens(0.6):
        _stored_and_in_force(build, box, inner, build.one_of('r', root))


def _stored_and_in_force(build, box, inner, parent):
    """The scroll range shrinks below a stored position and grows again."""
    build.line('append %s %s' % (parent, box), 'set %s overflow auto' % box, 'set %s height 900px' % inner,
               'scroll %s 0px 800px' % box, 'set %s height %s' % (inner, build.one_of('80px', '100px', '61px')))
    for _ in range(build.chance.randrange(1, 4)):
        build.line(build.one_of('read ' + box, 'read ' + inner, 'scroll-by %s 0px -3px' % box, 'scroll %s 0px 20px' % box,
                                'scroll-by %s 1px 0px' % box))
    build.line('set %s height 900px' % inner, 'read ' + box)
    build.write_tick()


def frames_in_frames(build):
    """Nested frames, moved and with sizes in percentages."""
    nested = [_frame(build, height='80%')]
    nested.append(_frame(build, nested[0][2], nested[0][1], height='50%'))
    nested.append(_frame(build, nested[1][2], nested[1][1]))
    frames, documents, roots = zip(*nested)
    for frame in frames:
        for axis in ('width', 'height'):
            build.line('set %s %s %s' % (frame, axis, build.one_of('50%', '100%', '90%', '250px')))
    target, watch = build.fresh('b'), build.fresh('w')
    _put(build, target, documents[2], roots[2], 'height 50%', 'min-height 7px')
    build.line('read ' + target)
    build.intersection_observers.append(watch)
    build.line('io %s top - root %s margin %s threshold 0 0.5' % (
        watch, build.one_of('-', documents[0], documents[2], roots[2], roots[1]), build.margin()))
    for node in (target, roots[2], frames[2], frames[1]):
        build.line('io-observe %s %s' % (watch, node))

    def act():
        return build.one_of(
            'append %s %s' % (build.one_of('r', roots[0], roots[1]), build.one_of(*frames, roots[1], target)),
            'remove ' + build.one_of(frames[0], frames[1], roots[1], roots[2]),
            'append %s %s' % (build.chance.choice(documents), build.one_of(*roots, target, frames[1])),
            'viewport %s %s' % (build.length(), build.length()),
            'scroll %s 0px %s' % (build.one_of(*documents, 'top'), build.signed_length()),
            build.style(build.one_of(*frames, *roots)), 'read ' + target, 'read ' + build.chance.choice(documents))
    for _ in range(build.chance.randrange(1, 4)):
        build.write_tick()
        build.line(*_several(build, 1, 3, act))
    build.write_tick()
    build.line('read ' + target)


def device_pixels(build):
    """Boxes observed in device pixels, at ratios of which some round to the same numbers; version 2."""
    nodes = [build.fresh('b') for _ in range(3)]
    for node in nodes:
        _put(build, node, 'top', 'r', 'width ' + build.one_of('0.5px', '10.5px', '33.33px', '100px'),
             'height ' + build.one_of('0.02px', '0.49px', '1px', '20.25px'), 'padding ' + build.one_of('0px', '1px'))
    watch = build.fresh('o')
    build.line('ro %s top %s' % (watch, build.handler_or_none()))
    build.resize_observers.append(watch)
    build.line(*['ro-observe %s %s %s' % (watch, node, build.one_of('device', 'device', 'content', 'border')) for node in nodes])
    for _ in range(build.chance.randrange(2, 5)):
        build.line(*_several(build, 0, 2, lambda: build.one_of(
            'ratio ' + build.one_of('0%', '0.01%', '50%', '99.99%', '100%', '100.01%', '133.33%', '150%', '200%', '10000%'),
            'set %s width %s' % (build.chance.choice(nodes), build.one_of('10.5px', '10.51px', '33.34px', '0.5px')),
            'ro-observe %s %s device' % (watch, build.chance.choice(nodes)))))
        build.write_tick()


def margins_of_scrolling(build):
    """Targets beyond the edges of scroll containers and of boxes that only clip, for observers with scroll margins; version 2."""
    outer, middle, inner = [build.fresh('b') for _ in range(3)]
    _put(build, outer, 'top', 'r', 'height 100px', 'width 200px', 'overflow ' + build.one_of('hidden', 'scroll', 'auto'),
         'padding ' + build.one_of('0px', '10px'), 'border ' + build.one_of('0px', '3px'))
    _put(build, middle, 'top', outer, 'height ' + build.one_of('60px', '120px'),
         'overflow ' + build.one_of('visible', 'clip', 'hidden', 'scroll'))
    _put(build, inner, 'top', middle, 'height ' + build.one_of('55px', '130px'))
    nodes = [middle, inner]
    for _ in range(2):
        nodes.append(build.fresh('b'))
        _put(build, nodes[-1], 'top', build.one_of(inner, middle, outer), 'height 10px')
    watches = [build.fresh('w') for _ in range(build.chance.randrange(1, 4))]
    for watch in watches:
        build.intersection_observers.append(watch)
        scroll = ' scroll ' + build.margin() if build.happens(0.8) else ''
        text = 'io %s top %s root %s margin %s%s threshold %s' % (
            watch, build.handler_or_none(), build.one_of('-', '-', outer, middle, 'top'), build.margin(), scroll, build.thresholds())
        build.line(' '.join(text.split()))
        build.line(*['io-observe %s %s' % (watch, node) for node in nodes])
    for _ in range(build.chance.randrange(2, 5)):
        build.write_tick()
        build.line(build.one_of('scroll %s 0px %s' % (outer, build.signed_length()), 'scroll-by %s 0px 10px' % middle,
                                'set %s overflow %s' % (build.one_of(outer, middle), build.one_of('visible', 'clip', 'hidden')),
                                'set %s width %s' % (outer, build.one_of('200px', '50px')), build.style(inner)))
    build.write_tick()


def positions(build):
    """Containing blocks, insets and scroll containers; version 2."""
    outer, middle, inner = [build.fresh('b') for _ in range(3)]
    _put(build, outer, 'top', 'r', 'height 200px', 'overflow ' + build.one_of('visible', 'hidden', 'auto', 'clip'),
         'border ' + build.one_of('0px', '3px', '8px'))
    _put(build, middle, 'top', outer, 'height ' + build.one_of('auto', '50%', '120px'))
    _put(build, inner, 'top', middle, 'height ' + build.one_of('auto', '30px', '50%'))
    nodes = [outer, middle, inner]
    for _ in range(2):
        nodes.append(build.fresh('b'))
        _put(build, nodes[-1], 'top', build.one_of(inner, middle), 'height ' + build.one_of('50%', '10px', '400px'))
    if build.happens(0.6):
        _put(build, build.fresh('b'), 'top', 'r', 'height 3000px')
        build.line('scroll top 0px 400px')
    if build.happens(0.2):
        build.line('set r position ' + build.one_of('relative', 'absolute', 'fixed'),
                   'set r %s 10px' % build.one_of('left', 'top', 'right', 'bottom'))
    for _ in range(build.chance.randrange(4, 12)):
        build.line(_position_style(build, build.chance.choice(nodes)), 'read ' + build.chance.choice(nodes))
        if build.happens(0.3):
            build.line('scroll %s %s %s' % (build.one_of(outer, 'top', middle), build.signed_length(), build.signed_length()))
    watch = build.fresh('w')
    build.intersection_observers.append(watch)
    build.line('io %s top - root %s margin %s threshold 0 0.5' % (
        watch, build.one_of('-', outer, outer, middle, 'top'), build.one_of('', 'scroll 20px', '5px scroll 10%')))
    build.line(*['io-observe %s %s' % (watch, node) for node in nodes])
    for _ in range(build.chance.randrange(1, 4)):
        build.write_tick()
        build.line(build.one_of(_position_style(build, build.chance.choice(nodes)), 'scroll %s 0px 50px' % outer,
                                'scroll top 0px 0px', 'scroll-by top 0px 30px'))
    build.write_tick()
    build.line(*['read ' + node for node in nodes])


def _position_style(build, node):
    side = build.one_of('top', 'right', 'bottom', 'left')
    return 'set %s %s' % (node, build.one_of(
        'position ' + build.one_of('static', 'relative', 'absolute', 'fixed'),
        'position ' + build.one_of('relative', 'absolute', 'fixed'),
        'overflow ' + build.one_of('visible', 'hidden', 'scroll', 'clip'),
        '%s %s' % (side, build.one_of('auto', build.signed_length(), build.percent(), '-' + build.percent())),
        '%s %s' % (side, build.signed_length())))
