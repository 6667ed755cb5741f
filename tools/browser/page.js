// Runs a script in a window. `script` is what scripts.py has read: items with their line numbers; its `ratio` is the initial device pixel
// ratio. Each command is the call of the DOM or of an observer that it names; what callbacks are given is written as trace lines, in the
// order in which it is given. `setting` has `live` if the browser schedules its updates itself, and `resize` if the window is a frame of
// known size.
function observersRun(script, window, setting) {
  'use strict';
  const document = window.document;
  const UNITS = 64;
  const lines = [];
  const names = new Map();
  const docs = [];
  const observers = [];            // resize observers in order of creation
  const timers = [];
  const due = [];                  // posted tasks that wait for the update
  const listeners = new Map();     // for each target one function per event and handler, so that the browser recognizes duplicates
  let clock = 0, inUpdate = false, waiting = 0, round = null, next = 0, ratio = script.ratio || 1;

  class Thrown extends Error { constructor(kind) { super(kind); this.kind = kind; } }
  class NotShown extends Error {}
  class Ended extends Error {}
  const write = line => { lines.push(line); if (lines.length > 20000) throw new Ended('more than 20000 lines'); };

  // ---- printing ----
  function px(value) {
    const sign = value < 0 ? '-' : '';
    const all = Math.round(Math.abs(value) * 1e6);
    const whole = Math.floor(all / 1e6), rest = all % 1e6;
    if (whole === 0 && rest === 0) return '0';
    return sign + whole + (rest ? '.' + String(rest).padStart(6, '0').replace(/0+$/, '') : '');
  }
  // If the edges of a rectangle cross, `left` is the lesser of the two; some engines don't have `x`.
  const rect = r => r ? ['x' in r ? r.x : r.left, 'y' in r ? r.y : r.top, r.width, r.height].map(px).join(' ') : 'null';
  const area = r => BigInt(Math.round(r.width * UNITS)) * BigInt(Math.round(r.height * UNITS));
  function share(entry) {
    const whole = area(entry.boundingClientRect), part = area(entry.intersectionRect);
    if (whole === 0n) return (entry.intersectionRatio === 1 ? '1' : '0') + '/1';
    const ratio = Number(part) / Number(whole);
    return Math.abs(ratio - entry.intersectionRatio) > 1e-4 ? '~' + entry.intersectionRatio : part + '/' + whole;
  }
  const intersectLine = (o, e) => `intersect ${o.name} ${nameOf(e.target)} ${clock} ${e.isIntersecting ? 'yes' : 'no'} ${share(e)}` +
    ` root ${rect(e.rootBounds)} box ${rect(e.boundingClientRect)} cut ${rect(e.intersectionRect)}`;
  const nameOf = thing => thing.observersName || '?';
  // A window has whole pixels, as an engine rounds a frame's size.
  const wholePixels = word => Math.floor(parseFloat(word) + 0.5);

  // ---- names ----
  function named(word, ...kinds) {
    const thing = names.get(word);
    if (!thing) throw new Thrown('ReferenceError');
    if (!kinds.includes(thing.what)) throw new Thrown('TypeError');
    return thing;
  }
  function node(word, entry, ...kinds) {
    if (word !== '$target') return named(word, ...(kinds.length ? kinds : ['node']));
    if (!entry) throw new Thrown('ReferenceError');
    return names.get(nameOf(entry.target));
  }
  function fresh(name, also) { if (names.has(name) || name === also) throw new Thrown('TypeError'); }
  function handler(name) {
    if (name === '-') return null;
    if (!script.handlers[name]) throw new Thrown('ReferenceError');
    return script.handlers[name];
  }
  function shown(doc, what) {
    if (doc.state === 'fresh') throw new NotShown(`${what} of the document of a frame that is in no tree yet, which has no window`);
    return doc;
  }
  // What needs a window waits until the document has one.
  function later(doc, run) {
    if (doc.state === 'fresh') doc.waiting.push(run);
    else run();
  }
  const active = doc => doc.state === 'active';

  // ---- documents ----
  // Makes callbacks in the document's realm, like those of its own scripts, since a browser uses the realm's document. It is made by a
  // script element, since a page's policy may forbid `Function`.
  function makerIn(document) {
    const script = document.createElement('script'), inner = document.defaultView;
    script.textContent = 'observersMaker = run => (...told) => run(...told);';
    (document.documentElement || document).appendChild(script);
    script.remove();
    const made = inner.observersMaker;
    delete inner.observersMaker;
    return made;
  }
  function opened(doc, document) {
    const before = doc.document;
    doc.state = 'active';
    doc.document = document;
    doc.window = document.defaultView;
    // A window whose frame is gone no longer gives constructors that weren't looked up before.
    ({ ResizeObserver: doc.ResizeObserver, IntersectionObserver: doc.IntersectionObserver } = doc.window);
    doc.made = makerIn(document);
    document.observersName = doc.name;
    // The page of a new frame is in quirks mode, where a root element fills the viewport, unless it has a document type.
    if (document.compatMode !== 'CSS1Compat') {
      document.open();
      document.write('<!doctype html>');
      document.close();
    }
    while (document.firstChild) document.removeChild(document.firstChild);
    for (const kind of ['resize', 'scroll', 'error']) {
      doc.window.addEventListener(kind, event => fired(doc, event), true);
    }
    if (before) filled(doc, before);
  }
  // Until a frame is in a tree, the elements of its document are in one without a window. Here they move to the frame's page.
  function filled(doc, before) {
    for (const made of names.values()) {
      if (made.what !== 'node' || made.element.ownerDocument !== before || made.element.parentNode && made.element.parentNode !== before) continue;
      const isRoot = made.element.parentNode === before;
      doc.document.adoptNode(made.element);
      if (isRoot) {
        doc.document.appendChild(made.element);
        space(made);
      }
    }
    for (const run of doc.waiting.splice(0)) run();
  }
  function fired(doc, event) {
    noteUpdate();
    endRound();
    if (event.type === 'resize' && event.target === doc.window) write(`event resize @${doc.name}`);
    else if (event.type === 'scroll') write(`event scroll ${nameOf(event.target)}`);
    else if (event.type === 'error' && event.target === doc.window) write(`event error @${doc.name} ${messageOf(event)}`);
  }
  // A browser may hide messages from a page that is opened as a file; only one message is possible here.
  function messageOf(event) {
    const kept = event.message === 'Script error.' && location.protocol === 'file:';
    return kept ? 'ResizeObserver loop completed with undelivered notifications.' : event.message;
  }
  function settleFrames() {
    let isOpened = false;
    for (const doc of docs) {
      if (!doc.frame) continue;
      const held = doc.frame.element.isConnected ? doc.frame.element.contentDocument : null;
      if (doc.state === 'fresh' && held) {
        opened(doc, held);
        isOpened = true;
      } else if (doc.state === 'active' && held !== doc.document) doc.state = 'dead';
    }
    // A document that is filled may contain frames.
    if (isOpened) settleFrames();
  }

  // ---- the tree ----
  const base = { block: 'display:flow-root', image: 'display:block;contain:size', frame: 'display:block' };
  const common = ';margin:0;padding:0;border:0 solid transparent;box-sizing:content-box;min-width:0;min-height:0' +
    ';scrollbar-width:none';
  function make(name, kind, doc, tag) {
    const element = doc.document.createElement(tag);
    // WebKit doesn't show a frame with the same address as two frames around it.
    if (kind === 'frame' && navigator.vendor.startsWith('Apple')) element.src = 'about:blank?' + names.size;
    const spacer = doc.document.createElement('i');
    spacer.style.cssText = 'display:flow-root;height:0;margin:0';
    element.style.cssText = base[kind] + common;
    element.observersName = name;
    // An event at an element that is no longer in a document doesn't reach a window.
    element.addEventListener('scroll', event => { if (!windowOf(element)) fired(doc, event); });
    const made = { what: 'node', name, kind, element, spacer, style: { width: 'auto', height: 'auto' } };
    names.set(name, made);
    return made;
  }
  const windowOf = element => element.isConnected ? element.ownerDocument.defaultView : null;
  // A spacer without height follows each child, so that margins of siblings don't collapse. A comment follows each root element, since
  // WebKit otherwise doesn't show one that is inserted and styled at once.
  function space(made) {
    const parent = made.element.parentNode;
    hideIn(made, parent);
    if (parent && parent.nodeType === 1) return parent.insertBefore(made.spacer, made.element.nextSibling);
    made.spacer.remove();
    if (parent) parent.append(parent.createComment(''));
  }
  // What is inside an image has no box; an engine may show it instead of a canvas.
  function hideIn(made, parent) {
    if (parent && parent.nodeName === 'CANVAS') made.element.style.setProperty('display', 'none', 'important');
    else if (made.element.style.getPropertyPriority('display')) made.element.style.setProperty('display', displayOf(made));
    if (parent && parent.nodeName === 'CANVAS') made.spacer.style.display = 'none';
    else made.spacer.style.display = 'flow-root';
  }
  const displayOf = made => made.style.display === 'none' ? 'none' : made.kind === 'block' ? 'flow-root' : 'block';
  const inner = parent => parent.what === 'doc' ? parent.document : parent.element;
  const natural = (width, height) => `${width} ${height}`;

  // ---- resize observers: the browser doesn't say where a round ends; that is inferred from what was active as the round began ----
  const depth = element => { let d = 0; for (let e = element; e && e.nodeType === 1; e = e.parentNode) d++; return d; };
  function sizeOf(element, box) {
    const r = element.getBoundingClientRect();
    if (box === 'border') return r.width + ' ' + r.height;
    const style = element.ownerDocument.defaultView && element.ownerDocument.defaultView.getComputedStyle(element);
    if (!style || !element.getClientRects().length) return '0 0';
    const sum = (...list) => list.reduce((all, p) => all + parseFloat(style[p]), 0);
    const size = [r.width - sum('paddingLeft', 'paddingRight', 'borderLeftWidth', 'borderRightWidth'),
      r.height - sum('paddingTop', 'paddingBottom', 'borderTopWidth', 'borderBottomWidth')];
    // Engines count device pixels between the edges, each rounded to the nearest device pixel.
    const device = (start, side) => Math.round((start + side) * ratio) - Math.round(start * ratio);
    return (box === 'device' ? [device(r.left, size[0]), device(r.top, size[1])] : size).join(' ');
  }
  // The inline and block size of a box in an entry.
  const told = box => box[0].inlineSize + ' ' + box[0].blockSize;
  // Two ways to read a size may differ by less than an engine's smallest length.
  function alike(one, two) {
    const [a, b] = [one.split(' '), two.split(' ')];
    return a.every((side, at) => Math.abs(side - b[at]) < 0.001);
  }
  // In version 2: the content box in device pixels.
  function deviceSize(entry) {
    if (!entry.devicePixelContentBoxSize) throw new NotShown('resize entries with device pixels, which this browser lacks');
    const has = window.devicePixelRatio;
    if (Math.abs(has - ratio) > 1e-6) throw new NotShown(`a ratio of ${100 * ratio}%, as this browser has one of ${100 * has}%`);
    return told(entry.devicePixelContentBoxSize);
  }
  function gathered(doc, least) {
    const all = new Set();
    for (const o of observers) {
      if (o.doc !== doc) continue;
      for (const [element, seen] of o.targets) {
        if (depth(element) > least && (seen.last === null || !alike(seen.last, sizeOf(element, seen.box)))) all.add(o.name + ' ' + nameOf(element));
      }
    }
    return all;
  }
  function endRound() {
    if (!round) return;
    const ended = round;
    round = null;
    if (active(ended.doc)) write(`round ${ended.doc.name} ${ended.least}`);
    return ended;
  }
  function resized(o, entries) {
    noteUpdate();
    const at = observers.indexOf(o);
    const same = round && round.doc === o.doc && at > round.at && entries.some(e => round.all.has(o.name + ' ' + nameOf(e.target)));
    if (!same) {
      const before = round && round.doc === o.doc ? round.least : 0;
      endRound();
      round = { doc: o.doc, least: Infinity, all: gathered(o.doc, before) };
    }
    round.at = at;
    for (const e of entries) {
      round.least = Math.min(round.least, depth(e.target));
      const seen = o.targets.get(e.target);
      const border = e.borderBoxSize[0], device = script.version === 1 ? '' : ' device ' + deviceSize(e);
      if (seen) seen.last = told({ content: e.contentBoxSize, border: e.borderBoxSize, device: e.devicePixelContentBoxSize }[seen.box]);
      write(`resize ${o.name} ${nameOf(e.target)} rect ${rect(e.contentRect)} border ${px(border.inlineSize)} ${px(border.blockSize)}${device}`);
    }
    call(o.handler, { kind: 'resize', entries });
  }
  function intersected(o, entries) {
    noteEntries(o, entries);
    endRound();
    for (const e of entries) write(intersectLine(o, e));
    call(o.handler, { kind: 'intersect', entries });
  }

  // ---- callbacks ----
  function guarded(run) {
    try { run(); } catch (e) {
      if (e instanceof NotShown || e instanceof Ended) { api.stopped = api.stopped || [e instanceof Ended ? 'ended' : 'not-shown', e.message]; return; }
      throw e;
    }
  }
  function call(commands, told) {
    if (!commands || api.stopped) return;
    guarded(() => body(commands, told, null));
  }
  // Runs commands, up to the first that throws.
  function body(commands, told, entry) {
    for (const c of commands) if (!begun(c, told, entry)) return false;
    return true;
  }
  function begun(c, told, entry) {
    try {
      if (c.op === 'each') {
        for (const e of told ? told.entries : []) if (!body(c.body, told, e)) return false;
      } else if (c.op === 'when') {
        if (holds(c.args, told, entry)) return body(c.body, told, entry);
      } else commands[c.op](c.args, entry);
      return true;
    } catch (e) {
      if (e instanceof NotShown || e instanceof Ended) throw e;
      write(`throw ${c.line} ${e instanceof Thrown ? e.kind : e.name}`);
      return false;
    }
  }
  // The target at which to listen for an event, with the document in whose realm the listener is created.
  function aim(word, entry) {
    if (word[0] === '@') {
      const doc = named(word.slice(1), 'doc');
      return { at: doc.window, doc };
    }
    const thing = node(word, entry, 'node', 'doc', 'query');
    if (thing.what === 'query') return { at: thing.list, doc: thing.doc };
    if (thing.what === 'doc') return { at: thing.state === 'fresh' ? undefined : thing.document, doc: thing };
    return { at: thing.element, doc: docs.find(doc => doc.document === thing.element.ownerDocument) };
  }
  function listen(word, kind, name, entry) {
    const { at, doc } = aim(word, entry), found = handler(name), key = kind + ' ' + name;
    if (doc.state === 'fresh' && at) shown(doc, 'a listener of an element');
    if (doc.state === 'fresh') return void later(doc, () => listen(word, kind, name, null));
    if (!listeners.has(at)) listeners.set(at, new Map());
    const known = listeners.get(at);
    if (!known.has(key)) known.set(key, doc.made(() => call(found, null)));
    at.addEventListener(kind, known.get(key));
  }
  // If the listener is added again, it is created anew, because its target may be in another document by then.
  function unlisten(word, kind, name, entry) {
    const { at, doc } = aim(word, entry), key = kind + ' ' + name;
    handler(name);
    if (doc.state === 'fresh') return void later(doc, () => unlisten(word, kind, name, null));
    const known = listeners.get(at);
    if (!known || !known.has(key)) return;
    at.removeEventListener(kind, known.get(key));
    known.delete(key);
  }
  function holds(args, told, entry) {
    if (args[0] === 'not') return !holds(args.slice(1), told, entry);
    const number = word => parseFloat(word);
    if (args[0] === 'wider') return node(args[1], entry).element.getBoundingClientRect().width > number(args[2]);
    if (args[0] === 'taller') return node(args[1], entry).element.getBoundingClientRect().height > number(args[2]);
    if (args[0] === 'matches') return named(args[1], 'query').list.matches;
    if (args[0] === 'attached') return node(args[1], entry).element.parentNode !== null;
    if (!entry) throw new Thrown('ReferenceError');
    if (told.kind !== 'intersect') throw new Thrown('TypeError');
    return entry.isIntersecting;
  }
  // All tasks use one port, because messages of different ports have no order among each other; and all waiting tasks run with the first,
  // because an engine may run other tasks between two messages.
  const channel = new MessageChannel(), posted = [];
  channel.port1.onmessage = () => { waiting--; for (const task of posted.splice(0)) runTask(task); };
  function post(task) {
    waiting++;
    posted.push(task);
    channel.port2.postMessage(0);
  }
  function runTask(task) {
    endRound();
    if (!active(task.doc) || api.stopped) return;
    write(`task ${task.doc.name} ${task.name}`);
    call(task.handler, null);
  }

  // ---- commands ----
  const commands = {
    viewport([width, height]) {
      if (!setting.resize) throw new NotShown('a viewport that is changed inside a handler or block');
      setting.resize(wholePixels(width), wholePixels(height));
    },
    ratio() { throw new NotShown('a ratio that is changed inside a handler or block'); },
    block([name, doc]) { fresh(name); make(name, 'block', named(doc, 'doc'), 'div'); },
    image([name, doc, width, height]) {
      fresh(name);
      const made = make(name, 'image', named(doc, 'doc'), 'canvas');
      made.element.style.containIntrinsicSize = natural(width, height);
    },
    frame([name, doc, inside]) {
      fresh(name);
      const home = named(doc, 'doc');
      fresh(inside, name);
      const made = make(name, 'frame', home, 'iframe');
      const framed = { what: 'doc', name: inside, state: 'fresh', frame: made, waiting: [], document: window.document.implementation.createHTMLDocument('') };
      framed.document.documentElement.remove();
      names.set(inside, framed);
      docs.push(framed);
    },
    append([parent, child], entry) {
      const p = node(parent, entry, 'node', 'doc'), n = node(child, entry);
      inner(p).appendChild(n.element);
      space(n);
      settleFrames();
    },
    before([parent, child, sibling], entry) {
      const p = node(parent, entry, 'node', 'doc'), n = node(child, entry), s = node(sibling, entry);
      inner(p).insertBefore(n.element, s.element);
      space(n);
      settleFrames();
    },
    remove([child], entry) {
      const n = node(child, entry);
      n.element.remove();
      n.spacer.remove();
      settleFrames();
    },
    set([child, property, value], entry) {
      const n = node(child, entry);
      n.style[property] = value;
      if (property === 'display' && n.element.style.getPropertyPriority('display')) return;
      n.element.style.setProperty(property === 'border' || /^border-(top|right|bottom|left)$/.test(property) ? property + '-width' : property,
        property === 'display' && value === 'block' && n.kind === 'block' ? 'flow-root' : value);
    },
    grow([child, property, by], entry) {
      const n = node(child, entry);
      if (!/px$/.test(n.style[property])) throw new Thrown('TypeError');
      const sum = Math.trunc(parseFloat(n.style[property]) * UNITS) + Math.trunc(parseFloat(by) * UNITS);
      n.style[property] = Math.min(Math.max(sum, 0), 1000000 * UNITS) / UNITS + 'px';
      n.element.style.setProperty(property, n.style[property]);
    },
    load([child, width, height], entry) {
      const n = node(child, entry);
      if (n.kind !== 'image') throw new Thrown('TypeError');
      n.element.style.containIntrinsicSize = natural(width, height);
    },
    ro([name, doc, to]) {
      fresh(name);
      const o = { what: 'ro', name, doc: named(doc, 'doc'), handler: handler(to), targets: new Map() };
      later(o.doc, () => { o.real = new o.doc.ResizeObserver(o.doc.made(entries => guarded(() => resized(o, entries)))); });
      names.set(name, o);
      observers.push(o);
    },
    'ro-observe'([name, child, box], entry) {
      const o = named(name, 'ro'), n = node(child, entry);
      if (box === 'device' && !('devicePixelContentBoxSize' in window.ResizeObserverEntry.prototype)) {
        throw new NotShown('observers of device pixels, which this browser lacks');
      }
      later(o.doc, () => o.real.observe(n.element, { box: box === 'device' ? 'device-pixel-content-box' : box + '-box' }));
      o.targets.delete(n.element);
      o.targets.set(n.element, { box, last: null });
    },
    'ro-unobserve'([name, child], entry) {
      const o = named(name, 'ro'), n = node(child, entry);
      later(o.doc, () => o.real.unobserve(n.element));
      o.targets.delete(n.element);
    },
    'ro-disconnect'([name]) { const o = named(name, 'ro'); later(o.doc, () => o.real.disconnect()); o.targets.clear(); },
    io([name, doc, to, , root, ...rest], entry) {
      fresh(name);
      const home = shown(named(doc, 'doc'), 'an intersection observer'), commandsTo = handler(to);
      // In a frame of known size, its document takes the place of the implicit root, which would be the window around it.
      const implicit = setting.resize ? document : null;
      const given = root === '-' ? null : node(root, entry, 'node', 'doc');
      const at = !given ? implicit : given.what === 'doc' ? shown(given, 'an observer with the root').document : given.element;
      const cut = rest.indexOf('threshold'), scroll = script.version === 1 ? -1 : rest.slice(0, cut).indexOf('scroll');
      const options = { root: at, rootMargin: rest.slice(1, scroll < 0 ? cut : scroll).join(' '), threshold: rest.slice(cut + 1).map(Number) };
      if (scroll >= 0) {
        if (!('scrollMargin' in window.IntersectionObserver.prototype)) throw new NotShown('scroll margins, which this browser lacks');
        options.scrollMargin = rest.slice(scroll + 1, cut).join(' ');
      }
      const o = { what: 'io', name, doc: home, handler: commandsTo };
      o.real = new home.IntersectionObserver(home.made(entries => guarded(() => intersected(o, entries))), options);
      names.set(name, o);
    },
    'io-observe'([name, child], entry) { named(name, 'io').real.observe(node(child, entry).element); },
    'io-unobserve'([name, child], entry) { named(name, 'io').real.unobserve(node(child, entry).element); },
    'io-disconnect'([name]) { named(name, 'io').real.disconnect(); },
    'io-take'([name]) {
      const o = named(name, 'io'), records = o.real.takeRecords();
      noteEntries(o, records);
      write(`take ${name} ${records.length}`);
      for (const e of records) write(intersectLine(o, e));
    },
    listen([target, kind, to], entry) { listen(target, kind, to, entry); },
    unlisten([target, kind, to], entry) { unlisten(target, kind, to, entry); },
    media([name, doc, query]) {
      fresh(name);
      const home = shown(named(doc, 'doc'), 'a media query list'), list = home.window.matchMedia(query);
      names.set(name, { what: 'query', name, list, doc: home });
      list.addEventListener('change', e => { noteUpdate(); endRound(); write(`event change ${name} ${e.matches}`); });
    },
    scroll([target, x, y], entry) { scroller(target, entry).scrollTo(parseFloat(x), parseFloat(y)); },
    'scroll-by'([target, x, y], entry) { scroller(target, entry).scrollBy(parseFloat(x), parseFloat(y)); },
    raf([doc, key, to]) {
      const d = named(doc, 'doc'), commandsTo = handler(to);
      d.frames = d.frames || new Map();
      if (d.frames.has(key)) throw new Thrown('TypeError');
      const request = {}, run = () => {
        noteUpdate();
        d.frames.delete(key);
        write(`frame ${doc} ${key}`);
        call(commandsTo, null);
      };
      d.frames.set(key, request);
      later(d, () => { if (d.frames.get(key) === request) request.id = d.window.requestAnimationFrame(d.made(run)); });
    },
    'cancel-raf'([doc, key]) {
      const d = named(doc, 'doc');
      if (!d.frames || !d.frames.has(key)) return;
      if ('id' in d.frames.get(key)) d.window.cancelAnimationFrame(d.frames.get(key).id);
      d.frames.delete(key);
    },
    timer([doc, key, wait, to]) {
      const d = named(doc, 'doc'), commandsTo = handler(to);
      if (timers.some(t => t.doc === d && t.key === key)) throw new Thrown('TypeError');
      timers.push({ doc: d, key, at: clock + Number(wait), handler: commandsTo });
    },
    'clear-timer'([doc, key]) {
      const d = named(doc, 'doc'), at = timers.findIndex(t => t.doc === d && t.key === key);
      if (at >= 0) timers.splice(at, 1);
    },
    post([doc, to]) {
      const task = { doc: named(doc, 'doc'), name: to, handler: handler(to) };
      if (inUpdate) post(task); else due.push(task);
    },
    say([name]) { write('say ' + name); },
    read([target], entry) {
      const t = node(target, entry, 'node', 'doc');
      if (t.what === 'doc') {
        const w = shown(t, 'the size').window;
        return write(`read ${t.name} ${[0, 0, w.innerWidth, w.innerHeight, w.scrollX, w.scrollY].map(px).join(' ')}`);
      }
      const r = t.element.getBoundingClientRect(), root = t.element.parentNode && t.element.parentNode.nodeType === 9;
      write(`read ${t.name} ${rect(r)} ${root ? '0 0' : px(t.element.scrollLeft) + ' ' + px(t.element.scrollTop)}`);
    },
  };
  function scroller(target, entry) {
    const t = node(target, entry, 'node', 'doc');
    return t.what === 'doc' ? shown(t, 'the offset').window : t.element;
  }

  // ---- ticks ----
  function startTick(c) {
    const time = Number(c.args[0]);
    if (time < clock) { write(`throw ${c.line} RangeError`); return false; }
    clock = time;
    api.updated = false;
    nextUpdate();
    write('tick ' + time);
    const list = timers.filter(t => t.at <= clock).sort((a, b) => a.at - b.at);
    for (const t of list) {
      const at = timers.indexOf(t);
      if (at < 0) continue;
      timers.splice(at, 1);
      if (!active(t.doc)) continue;
      write(`timer ${t.doc.name} ${t.key}`);
      call(t.handler, null);
    }
    // Requested in each tick, so that there is an update; tasks posted before it are queued before those that the update queues.
    api.update = new Promise(done => window.requestAnimationFrame(() => {
      for (const task of due.splice(0)) post(task);
      inUpdate = api.updated = true;
      if (setting.live) ourUpdate();
      done();
    }));
    return true;
  }

  // ---- updates that no tick asked for: they do no harm if nothing is reported in them; otherwise the run is disturbed ----
  let ours = null, over = false, seen = [], watch = null, extra = Infinity;
  const frameTime = () => document.timeline.currentTime;
  // Called in each callback of an update: whether it is the tick's update is known once the tick's frame callback has run.
  function noteUpdate() {
    if (!setting.live) return;
    if (ours === null) seen.push(frameTime());
    else if (over || Math.abs(frameTime() - ours) > 1) api.disturbed = true;
  }
  function ourUpdate() {
    ours = frameTime();
    // Until its frame callbacks run, an engine may give the current time; another update is a sixtieth of a second away.
    if (seen.some(time => Math.abs(time - ours) > 14)) api.disturbed = true;
    // An update is one task: what comes after this message belongs to another one, even if an engine still gives the time of this one.
    const mine = ours;
    const end = new MessageChannel();
    end.port1.onmessage = () => { end.port1.close(); over = over || ours === mine; };
    end.port2.postMessage(0);
    extra = Infinity;
    watch = window.requestAnimationFrame(() => { extra = frameTime(); });
  }
  function nextUpdate() {
    if (watch !== null) window.cancelAnimationFrame(watch);
    ours = null;
    over = false;
    seen = [];
  }
  function noteEntries(o, entries) {
    if (!setting.live) return;
    // Times are whole milliseconds, so those of two windows may differ by up to two; another update is a sixtieth of a second away.
    const shift = o.doc.window.performance.timeOrigin - window.performance.timeOrigin;
    if (entries.some(e => e.time + shift > extra - 7)) api.disturbed = true;
  }

  // Waits until no task is waiting.
  async function quiet() {
    for (let turns = 0; turns < 2 && !api.stopped;) {
      await new Promise(done => { const c = new MessageChannel(); c.port1.onmessage = () => { c.port1.close(); done(); }; c.port2.postMessage(0); });
      turns = waiting ? 0 : turns + 1;
    }
  }
  const api = {
    stopped: null,
    updated: false,
    update: null,
    disturbed: false,
    lines,
    // Runs items up to the next thing that only the tool can do. A new page in a frame is laid out in a task of its own, which is given
    // time before an update.
    async step() {
      guarded(() => { while (next < script.items.length && !api.stopped) {
        const c = script.items[next++];
        if (c.op === 'tick') { if (startTick(c)) { api.wants = ['tick', clock]; return; } }
        else if (c.op === 'ratio') { ratio = parseFloat(c.args[0]) / 100; api.wants = ['ratio', ratio]; return; }
        else if (c.op === 'viewport' && !setting.resize) { api.wants = ['viewport', wholePixels(c.args[0]), wholePixels(c.args[1])]; return; }
        else begun(c, null, null);
      } api.wants = ['end', lines]; });
      if (!api.stopped && api.wants[0] === 'tick') await quiet();
      return api.stopped || api.wants;
    },
    async drained() {
      await quiet();
      endRound();
      inUpdate = false;
    },
    // What the script wants after an update and all that it queued; null if the page had no update.
    async after() {
      if (!api.updated) return null;
      await api.drained();
      return api.step();
    },
  };
  const top = { what: 'doc', name: 'top', frame: null, waiting: [] };
  names.set('top', top);
  docs.push(top);
  opened(top, document);
  return api;
}
