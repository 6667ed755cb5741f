// Records what a page is told about sizes and visibility, and says who stands behind a resize loop error; see docs/REAL-PAGES.md.
//
// bin/record runs it before a page's own scripts. It can also stand in the page, before every other script:
//     <script src="recorder.js"></script>
// The reports are then in the console, and `pageRecorder.record()` gives the recording. It sends nothing anywhere and depends on nothing.
(() => {
  'use strict';
  const NAME = 'pageRecorder';
  if (window[NAME]) return;
  const send = typeof window.pageRecorderSend === 'function' ? window.pageRecorderSend : null;
  delete window.pageRecorderSend;
  let above = null;
  if (window.parent !== window) {
    // A frame of another origin is left out: nothing in it can be read from here, nor the page from there.
    try { above = window.parent[NAME] || null; } catch (e) { return; }
  }

  // ---- one of these for a page and all its frames ----
  function makeHub(window, send) {
    const MOST_ROWS = 50000, MOST_MUTATIONS = 20, MOST_TEXT = 80, MICROTASKS = 40, FLUSHED = 50, SMALLEST = 1 / 128, UNTOUCHED = 500,
      MOST_TOUCHED = 1000, SHEETS = new Set(['style', 'link', 'head']);
    const rows = [], documents = [], observers = [], lists = new Map();
    const items = new WeakMap(), known = new WeakMap(), names = new Map();
    const reports = [];
    let elements = 0, unsent = 0, flushed = -Infinity, stopped = false, update = null, updates = 0, call = null, lastCall = null, calls = 0;
    const now = () => window.performance.now();

    // ---- rows ----
    function add(row) {
      if (stopped) return;
      if (rows.length >= MOST_ROWS) {
        stopped = true;
        row = { what: 'stopped', why: `more than ${MOST_ROWS} rows` };
      }
      rows.push(row);
      if (send && now() - flushed > FLUSHED) flush();
    }
    function flush() {
      if (!send || unsent === rows.length) return;
      const some = rows.slice(unsent);
      unsent = rows.length;
      flushed = now();
      send(JSON.stringify({ page: window.location.href, origin: window.performance.timeOrigin, rows: some }));
    }
    // The recorder's own fault is noted, and doesn't reach the page.
    function safely(act) {
      try { return act(); } catch (e) { add({ what: 'fault', why: String(e && e.stack || e).slice(0, 400) }); return undefined; }
    }

    // ---- places in the source ----
    const own = (frames(new Error().stack)[0] || {}).file;
    function frames(stack) {
      const found = [];
      for (const line of String(stack || '').split('\n')) {
        const match = /^\s*at (?:(.*?) \()?(?:async )?(.*?):(\d+):(\d+)\)?$/.exec(line) || /^(.*?)@(.*?):(\d+):(\d+)$/.exec(line);
        if (match) found.push({ in: (match[1] || '').replace(/^new /, ''), file: match[2], line: Number(match[3]), column: Number(match[4]) });
      }
      return found;
    }
    // Where the page's code called: what comes after the wrapper through which it got here. A browser may give the recorder's own frames
    // the page's address. Only the error is made at once, since its text takes more time than all else.
    function place(error = new Error()) {
      const found = frames(error.stack), isOwn = frame => frame.file === own || frame.file.includes('eval at') && frame.file.includes(own);
      const entry = found.findIndex(frame => /(^|\.)(construct|apply)$/.test(frame.in) && isOwn(frame));
      return (entry < 0 ? found.filter(frame => !isOwn(frame)) : found.slice(entry + 1)).slice(0, 4)
        .map(frame => Object.assign(frame, { file: frame.file.replace(/[?#].*$/, '') }));
    }
    const short = at => at ? `${at.file.replace(/^.*\//, '') || at.file}:${at.line}:${at.column}` : 'an unknown place';

    // ---- documents and elements ----
    function documentOf(document) {
      let found = known.get(document);
      if (!found) {
        const view = document.defaultView;
        found = { id: documents.length, ref: new WeakRef(document), frame: null, loop: null, text: '', mutations: null };
        known.set(document, found);
        documents.push(found);
        if (view && view !== window && view.frameElement) found.frame = itemOf(view.frameElement).id;
        add({ what: 'document', id: found.id, url: document.URL, frame: found.frame, mode: document.compatMode });
      }
      return found;
    }
    const up = element => element.assignedSlot || element.parentElement || (element.parentNode && element.parentNode.host) || null;
    function depthOf(element) {
      let depth = 0;
      for (let at = element; at; at = up(at)) depth++;
      return depth;
    }
    const escaped = text => window.CSS.escape(text);
    function nameOf(element) {
      if (!up(element)) return element.localName;
      const root = element.getRootNode();
      const single = selector => { try { return root.querySelectorAll(selector).length === 1; } catch (e) { return false; } };
      if (element.id && single('#' + escaped(element.id))) return '#' + escaped(element.id);
      const classes = Array.from(element.classList || []).slice(0, 2).map(name => '.' + escaped(name)).join('');
      if (element.localName === 'body') return 'body';
      if (classes && single(classes)) return classes;
      if (!classes && single(element.localName)) return element.localName;
      const place = Array.prototype.indexOf.call(element.parentNode ? element.parentNode.children : [], element) + 1;
      return `${nameOf(up(element))} > ${element.localName}:nth-child(${place})`;
    }
    function itemOf(element) {
      let item = items.get(element);
      if (!item) {
        item = { id: elements++, ref: new WeakRef(element), text: '', name: null, placed: element.isConnected };
        items.set(element, item);
        item.name = nameOf(element);
        names.set(item.id, item);
        add({ what: 'element', id: item.id, name: item.name, tag: element.localName, depth: depthOf(element),
          document: documentOf(element.ownerDocument).id, shadow: Boolean(element.getRootNode().host) });
      }
      return item;
    }

    // ---- boxes ----
    const NONE = [0, 0, 0, 0];
    const styleOf = element => element.ownerDocument.defaultView.getComputedStyle(element);
    // The four edges: one reading is enough if they are all 0.
    const side = (style, name, tail) => style[name + tail] === '0px' ? NONE
      : ['Top', 'Right', 'Bottom', 'Left'].map(part => parseFloat(style[name + part + tail]) || 0);
    const traps = style => style.transform !== 'none' || style.perspective !== 'none' || style.filter !== 'none' ||
      /paint|layout|strict|content/.test(style.contain) || /transform|perspective|filter/.test(style.willChange);
    // The element whose box contains this out-of-flow one, or `page` or `screen`.
    function holderOf(element, position) {
      for (let at = up(element); at; at = up(at)) {
        const style = styleOf(at);
        if (traps(style) || position === 'absolute' && style.position !== 'static') return itemOf(at).id;
      }
      return position === 'fixed' ? 'screen' : 'page';
    }
    // What clips at an element; the overflow of a root element, or of a body that passes its own on, is the viewport's.
    function overflowOf(element, style) {
      const document = element.ownerDocument, root = document.documentElement;
      if (element === root || style.display === 'inline') return 'visible';
      if (element === document.body && styleOf(root).overflow === 'visible') return 'visible';
      if (style.overflow === 'visible' && /paint|strict|content/.test(style.contain)) return 'clip';
      return style.overflow;
    }
    const REPLACED = new Set('img canvas video iframe embed object input textarea select audio button meter progress'.split(' '));
    const isReplaced = element => REPLACED.has(element.localName);
    const near = (one, two) => Math.abs(one[0] - two[0]) < SMALLEST && Math.abs(one[1] - two[1]) < SMALLEST;
    // The border box that layout gives, without transforms. A computed width has six digits, the rectangle has all.
    function laidOut(element, style, rect, border, padding) {
      if (Math.abs(element.offsetWidth - rect.width) <= 0.5 && Math.abs(element.offsetHeight - rect.height) <= 0.5) return [rect.width, rect.height];
      const inner = style.boxSizing === 'border-box' ? [0, 0] : [border[1] + border[3] + padding[1] + padding[3],
        border[0] + border[2] + padding[0] + padding[2]];
      const size = [parseFloat(style.width) + inner[0], parseFloat(style.height) + inner[1]];
      const same = (one, two) => !(Math.abs(one - two) > 0.03 + Math.abs(two) * 1e-5);
      return same(size[0], rect.width) && same(size[1], rect.height) ? [rect.width, rect.height] : size;
    }
    function boxOf(element) {
      const document = element.ownerDocument;
      if (!element.isConnected || !document.defaultView) return { in: null };
      const parent = up(element), style = styleOf(element);
      const box = { in: parent ? itemOf(parent).id : 'document ' + documentOf(document).id };
      if (!element.getClientRects().length) return Object.assign(box, { none: style.display === 'contents' ? 'contents' : 'none' });
      const rect = element.getBoundingClientRect(), border = side(style, 'border', 'Width'), padding = side(style, 'padding', '');
      box.rect = [rect.left, rect.top, rect.width, rect.height];
      if (border.some(Boolean)) box.border = border;
      if (padding.some(Boolean)) box.padding = padding;
      const overflow = overflowOf(element, style);
      if (overflow !== 'visible') box.overflow = overflow;
      if (/hidden|auto|scroll/.test(overflow)) box.scroll = [element.scrollLeft, element.scrollTop, element.scrollWidth, element.scrollHeight];
      if (style.position === 'absolute' || style.position === 'fixed') box.holder = holderOf(element, style.position);
      return odd(element, style, box, rect, border, padding);
    }
    // What isn't a plain box.
    function odd(element, style, box, rect, border, padding) {
      if (element.ownerSVGElement && element.getBBox) {
        const inner = element.getBBox();
        return Object.assign(box, { odd: 'an element of SVG', sized: [inner.width, inner.height] });
      }
      if (style.display === 'inline' && !isReplaced(element)) return Object.assign(box, { odd: 'an inline box', sized: [0, 0] });
      const size = laidOut(element, style, rect, border, padding);
      if (!near(size, [rect.width, rect.height])) box.sized = size;
      if (style.clipPath !== 'none') box.odd = 'clipped by a path';
      else if (style.transform !== 'none') box.odd = 'transformed';
      return box;
    }
    function viewportOf(document) {
      const view = document.defaultView, root = document.documentElement, scroller = document.scrollingElement || root;
      const inner = document.compatMode === 'BackCompat' || !root ? [view.innerWidth, view.innerHeight] : [root.clientWidth, root.clientHeight];
      return { viewport: inner, window: [view.innerWidth, view.innerHeight],
        scroll: [view.scrollX, view.scrollY, scroller ? scroller.scrollWidth : 0, scroller ? scroller.scrollHeight : 0] };
    }

    // ---- what is observed ----
    const observerOf = native => known.get(native);
    // An observer without targets isn't called any more in this round.
    function waitsNoMore(o) {
      const loop = o.document.loop;
      if (loop && loop.round && !o.targets.size) loop.round.waiting.delete(o);
    }
    const observations = () => observers.filter(o => o.kind === 'resize').flatMap(o => Array.from(o.targets.values()));
    // The size that is observed, from the box that was measured last.
    function sizeOf(item, box) {
      const known = item.box;
      if (!known || !known.rect) return [0, 0];
      if (known.odd && known.sized) return known.sized;
      const size = known.sized || known.rect.slice(2), edges = [0, 1, 2, 3].map(at => (known.border || NONE)[at] + (known.padding || NONE)[at]);
      if (box === 'border-box') return size;
      const content = [size[0] - edges[1] - edges[3], size[1] - edges[0] - edges[2]];
      return box === 'content-box' ? content : content.map(length => Math.round(length * window.devicePixelRatio));
    }
    const differs = (one, two, box) => box === 'device-pixel-content-box' ? Math.abs(one[0] - two[0]) > 1 || Math.abs(one[1] - two[1]) > 1
      : Math.abs(one[0] - two[0]) > 0.02 || Math.abs(one[1] - two[1]) > 0.02;
    function wanted() {
      const all = new Set();
      const with_ = element => { for (let at = element; at && !all.has(at);) {
        all.add(at);
        const view = at.ownerDocument.defaultView;
        at = up(at) || (view && view !== window && view.frameElement) || null;
      } };
      for (const o of observers) {
        for (const seen of o.targets.values()) with_(seen.item.ref.deref());
        const root = o.root && o.root.deref();
        if (root && root.nodeType === 1) with_(root);
      }
      return all;
    }
    // An element that was first met outside of the page has its name by its place as soon as it has one.
    function rename(item, element) {
      item.placed = true;
      item.name = nameOf(element);
      add({ what: 'name', element: item.id, name: item.name, depth: depthOf(element) });
    }
    // Reading styles takes most of the time, so an element's are only read again if its size has changed, if something on the path up from
    // it was changed, or after half a second, since a style sheet may change without notice.
    const touchedNow = new Set();
    let isAllTouched = true;
    function touch(records) {
      if (records.length > MOST_TOUCHED) isAllTouched = true;
      if (isAllTouched) return;
      for (const { target } of records) {
        const element = target.nodeType === 1 ? target : target.parentElement;
        if (!element || SHEETS.has(element.localName)) isAllTouched = true;
        else touchedNow.add(element);
      }
    }
    function isTouched(element, found) {
      const path = [];
      let at = element;
      while (at && !found.has(at) && !touchedNow.has(at)) { path.push(at); at = up(at); }
      const is = Boolean(at) && (found.has(at) ? found.get(at) : true);
      for (const one of path) found.set(one, is);
      return is;
    }
    // The box as it was, at its present place; or undefined if it must be measured anew.
    function sameBox(element, item, time, found) {
      const box = item.box;
      if (isAllTouched || !box || !box.rect || box.odd || box.sized || time - item.measured > UNTOUCHED || isTouched(element, found)) return undefined;
      const rect = element.getBoundingClientRect(), old = box.rect;
      if (!element.isConnected || rect.width !== old[2] || rect.height !== old[3] || !old[2] || !old[3]) return undefined;
      const scroll = box.scroll && [element.scrollLeft, element.scrollTop, element.scrollWidth, element.scrollHeight];
      if (rect.left === old[0] && rect.top === old[1] && (!scroll || scroll.every((length, at) => length === box.scroll[at]))) return box;
      return Object.assign({}, box, { rect: [rect.left, rect.top, rect.width, rect.height] }, scroll ? { scroll } : null);
    }
    // Measures everything that matters, and notes what has changed since the last time. Reading a size lays the page out, and what an
    // observer is told is as it was laid out when the round began; so within a round nothing is measured before its last callback.
    function measure(why, calls) {
      const boxes = {}, time = now(), found = new Map();
      for (const element of wanted()) {
        const item = itemOf(element), same = sameBox(element, item, time, found);
        if (same !== undefined && same === item.box) continue;
        if (same === undefined) item.measured = time;
        item.box = same || boxOf(element);
        const text = JSON.stringify(item.box);
        if (text !== item.text) { item.text = text; boxes[item.id] = item.box; }
        if (!item.placed && element.isConnected) rename(item, element);
      }
      touchedNow.clear();
      isAllTouched = false;
      for (const held of documents) {
        const document = held.ref.deref();
        if (!document || !document.defaultView) continue;
        const box = viewportOf(document), text = JSON.stringify(box);
        if (text !== held.text) { held.text = text; boxes['document ' + held.id] = box; }
      }
      for (const [number, some] of byCall(boxes, calls || [])) {
        add(Object.assign({ what: 'boxes', boxes: some }, number ? { after: number } : null, why));
      }
      for (const seen of observations()) seen.now = sizeOf(seen.item, seen.box);
    }
    // The boxes that changed, by the callback that changed them: if several of a round made changes, the last one that touched an element
    // around or inside the box, otherwise the last one.
    function byCall(boxes, calls) {
      if (!Object.keys(boxes).length) return [];
      if (calls.length < 2) return [[calls.length ? calls[0].number : 0, boxes]];
      const found = new Map();
      for (const key of Object.keys(boxes)) {
        const element = names.has(Number(key)) ? names.get(Number(key)).ref.deref() : null;
        const mine = calls.filter(one => touches(one, element)).pop() || calls[calls.length - 1];
        if (!found.has(mine.number)) found.set(mine.number, {});
        found.get(mine.number)[key] = boxes[key];
      }
      return found;
    }
    const touches = (one, element) => Boolean(element) && one.touched.some(ref => {
      const other = ref.deref();
      return other && (other.contains(element) || element.contains(other));
    });

    // ---- what changed: mutation records ----
    const ALL_CHANGES = { subtree: true, childList: true, attributes: true, attributeOldValue: true, characterData: true,
      characterDataOldValue: true };
    // The shadow trees that an element is in or has: what changes there isn't a change of the document's tree.
    const watchedRoots = new WeakSet();
    function watchRoots(element) {
      for (let at = element; at; at = up(at)) {
        for (const root of [at.shadowRoot, at.getRootNode()]) {
          const held = documentOf(at.ownerDocument);
          if (!root || !root.host || watchedRoots.has(root) || !held.mutations) continue;
          watchedRoots.add(root);
          held.mutations.observe(root, ALL_CHANGES);
        }
      }
    }
    function cut(value) {
      const text = String(value === null || value === undefined ? '' : value);
      return text.length > MOST_TEXT ? text.slice(0, MOST_TEXT) + '..' : text;
    }
    function told(record) {
      const target = record.target, element = target.nodeType === 1 ? target : target.parentElement;
      const name = element ? itemName(element) : 'the document';
      if (record.type === 'attributes') {
        const now = target.getAttribute(record.attributeName);
        return `${record.attributeName} of ${name}: "${cut(record.oldValue)}" -> "${cut(now)}"`;
      }
      if (record.type === 'characterData') return `text of ${name}: "${cut(record.oldValue)}" -> "${cut(target.data)}"`;
      const texts = [...record.addedNodes, ...record.removedNodes].every(node => node.nodeType === 3);
      if (texts) return `text of ${name}: now "${cut(element && element.textContent.trim())}"`;
      return `children of ${name}: ${record.addedNodes.length} added, ${record.removedNodes.length} removed`;
    }
    const itemName = element => (items.get(element) || { name: nameOf(element) }).name;
    function taken() {
      const all = [];
      for (const held of documents) if (held.mutations) all.push(...held.mutations.takeRecords());
      touch(all);
      return all;
    }
    function texts(records) {
      const said = records.slice(0, MOST_MUTATIONS).map(told);
      if (records.length > MOST_MUTATIONS) said.push(`${records.length - MOST_MUTATIONS} more`);
      return said;
    }
    // Records that the browser hands over by itself are those of tasks, or of microtasks after a callback.
    function mutated(records) {
      touch(records);
      if (!lastCall || call) return;
      const after = lastCall;
      changedBy(after, records, ' (after the callback had returned)');
      add({ what: 'after', call: after.number, by: texts(records) });
      settle(after);
    }
    function changedBy(one, records, when) {
      one.by.push(...texts(records).map(text => text + when));
      for (const record of records.slice(0, MOST_MUTATIONS)) {
        const target = record.target.nodeType === 1 ? record.target : record.target.parentElement;
        if (target) one.touched.push(new WeakRef(target));
      }
    }
    // Measures what the callbacks of a round have changed, once no observer is waiting to be called in it.
    function settle(one) {
      const loop = one.loop;
      if (loop && loop.round.waiting.size) return;
      const all = changing(loop ? loop.calls.filter(other => other.roundNumber === loop.number) : [one]);
      if (all.length) measureAfter(all);
    }
    const changing = calls => calls.filter(one => one.by.length || one.made.length);
    function measureAfter(calls) {
      const before = sizesNow();
      measure(null, calls);
      if (calls.length) moved(calls, before);
    }

    // ---- updates ----
    function frameTime() {
      const timeline = window.document.timeline;
      return timeline && timeline.currentTime !== null ? Number(timeline.currentTime) : now();
    }
    // A frame callback comes before the resize loop of its update, so one after it is in a new update, even if the browser has the same
    // time for both.
    function begin(time, isBeforeLoop) {
      if (update && !update.over && !(isBeforeLoop && update.looped) && Math.abs(update.time - time) < 0.5) return update;
      update = { number: ++updates, time, over: 0, looped: false };
      add({ what: 'update', number: update.number, time });
      return update;
    }
    // In a callback of an update: the update that it belongs to. A task that is posted now comes when the update is over.
    function inUpdate(isBeforeLoop = false) {
      const mine = begin(frameTime(), isBeforeLoop);
      if (!mine.watched) {
        mine.watched = true;
        later(() => { mine.over = now(); flush(); });
      }
      return mine;
    }
    function later(act) {
      const channel = new window.MessageChannel();
      channel.port1.onmessage = () => { channel.port1.close(); act(); };
      channel.port2.postMessage(0);
    }
    // Entries of an intersection belong to the update at whose time they were found.
    function updateAt(time) {
      if (update && time >= update.time - 1 && (!update.over || time <= update.over + 0.2)) return update;
      update = { number: ++updates, time, over: now() };
      add({ what: 'update', number: update.number, time });
      return update;
    }

    // ---- callbacks ----
    const sizesNow = () => new Map(observations().map(seen => [seen, seen.now]));
    function moved(calls, before) {
      for (const seen of observations()) {
        const from = before.get(seen), element = seen.item.ref.deref();
        if (!from || from[0] < 0 || !differs(from, seen.now, seen.box)) continue;
        const near = calls.filter(one => touches(one, element));
        for (const one of near.length ? near : calls) one.moved.push({ seen, from, to: seen.now });
      }
    }
    function started(o, row) {
      call = { number: ++calls, observer: o, moved: [], by: [], made: [], touched: [], targets: row.entries.map(entry => entry.element), loop: null };
      add(Object.assign({ what: 'call', number: call.number, observer: o.id }, row));
      return call;
    }
    function ended(one) {
      changedBy(one, taken(), '');
      settle(one);
      add({ what: 'end', call: one.number, by: one.by.slice() });
      call = null;
      lastCall = one;
      leave(one, MICROTASKS);
    }
    // The microtasks that come directly after a callback count as its own; one that is queued anew each time stays among them, and
    // never gets into another task.
    function leave(one, left) {
      if (lastCall !== one) return;
      if (left) window.queueMicrotask(() => leave(one, left - 1));
      else lastCall = null;
    }
    const lengths = rect => rect ? [rect.left, rect.top, rect.width, rect.height] : null;
    const told2 = size => size && size[0] ? [size[0].inlineSize, size[0].blockSize] : null;

    // A round begins at an observer that wasn't waiting when the last one began.
    function roundOf(o) {
      const held = o.document;
      if (!held.loop || held.loop.update !== update) held.loop = { update, reached: 0, round: null, number: 0, calls: [] };
      const loop = held.loop;
      if (loop.round && loop.round.waiting.delete(o)) return loop;
      measureAfter(changing(loop.calls).slice(-1));
      if (loop.round) loop.reached = loop.round.depth;
      const waiting = new Set();
      for (const seen of observations()) {
        const element = seen.item.ref.deref();
        if (seen.observer.document !== held || !element || !differs(seen.last || [-1, -1], seen.now, seen.box)) continue;
        if (depthOf(element) > loop.reached) waiting.add(seen.observer);
      }
      waiting.delete(o);
      loop.round = { depth: Infinity, waiting };
      loop.number++;
      return loop;
    }
    function resized(o, entries) {
      const mine = inUpdate();
      mine.looped = true;
      taken();
      lastCall = null;
      for (const entry of entries) touchedNow.add(entry.target);
      const loop = roundOf(o);
      const list = [];
      for (const entry of entries) {
        const depth = depthOf(entry.target), item = itemOf(entry.target), seen = o.targets.get(item);
        loop.round.depth = Math.min(loop.round.depth, depth);
        const sizes = { 'content-box': told2(entry.contentBoxSize) || [entry.contentRect.width, entry.contentRect.height],
          'border-box': told2(entry.borderBoxSize), 'device-pixel-content-box': told2(entry.devicePixelContentBoxSize) };
        if (seen) { seen.last = sizes[seen.box]; seen.reported = mine.number; }
        list.push({ element: item.id, depth, rect: lengths(entry.contentRect), border: sizes['border-box'],
          device: sizes['device-pixel-content-box'] });
      }
      const one = started(o, { update: mine.number, document: o.document.id, round: loop.number, entries: list });
      Object.assign(one, { loop, roundNumber: loop.number });
      loop.calls.push(one);
      return one;
    }
    function intersected(o, entries) {
      const view = o.document.ref.deref() && o.document.ref.deref().defaultView;
      const shift = view ? view.performance.timeOrigin - window.performance.timeOrigin : 0;
      const mine = updateAt(entries.length ? entries[entries.length - 1].time + shift : now());
      taken();
      lastCall = null;
      measure({ update: mine.number }, null);
      const list = entries.map(entry => entryRow(entry));
      return started(o, { update: mine.number, document: o.document.id, entries: list });
    }
    function entryRow(entry) {
      return { element: itemOf(entry.target).id, time: entry.time, is: entry.isIntersecting, ratio: entry.intersectionRatio,
        root: lengths(entry.rootBounds), box: lengths(entry.boundingClientRect), cut: lengths(entry.intersectionRect) };
    }

    // ---- loop errors ----
    function looped(document, message) {
      const held = documentOf(document), mine = inUpdate();
      taken();
      const calls = held.loop && held.loop.update === update ? held.loop.calls : [], changers = changing(calls);
      // In a loop only callbacks run: a single one has made the change, even if there is no record of it.
      measureAfter(changers.length ? changers.slice(-1) : calls.length === 1 ? calls : []);
      const loop = held.loop && held.loop.update === update ? held.loop : { reached: 0, round: null, number: 0, calls: [] };
      const reached = loop.round ? loop.round.depth : 0;
      const left = [];
      for (const seen of observations()) {
        const element = seen.item.ref.deref();
        if (seen.observer.document !== held || !element || !differs(seen.last || [-1, -1], seen.now, seen.box)) continue;
        left.push(leftOf(seen, element, loop));
      }
      const report = reportOf(message, mine, loop, reached, left);
      reports.push(report);
      add({ what: 'error', update: mine.number, document: held.id, message, reached, rounds: loop.number, left: left.map(plain), said: report });
      flush();
      if (!send) window.console.warn(report.join('\n'));
    }
    function leftOf(seen, element, loop) {
      const by = loop.calls.filter(one => one.moved.some(change => change.seen === seen));
      const first = seen.reported === undefined ? loop.calls.find(one => one.made.includes(seen)) || null : null;
      return { seen, element, depth: depthOf(element), by, first };
    }
    const plain = one => ({ observer: one.seen.observer.id, element: one.seen.item.id, box: one.seen.box, depth: one.depth,
      reported: one.seen.last, now: one.seen.now, by: one.by.map(other => other.number), first: one.first ? one.first.number : null });
    const digits = length => String(Math.round(length * 100) / 100);
    const sized = size => size ? `${digits(size[0])} by ${digits(size[1])}` : 'nothing';
    const called = o => `made at ${short(o.at[0])}${o.at[0] && o.at[0].in ? ` in ${o.at[0].in}` : ''}${
      o.at[1] && o.at[1].file !== o.at[0].file ? `, called from ${short(o.at[1])}` : ''}${o.callback ? `, callback \`${o.callback}\`` : ''}`;
    function reportOf(message, mine, loop, reached, left) {
      const said = [`${message} (at ${digits(mine.time)} ms, after ${loop.number} round${loop.number === 1 ? '' : 's'} of the resize loop)`];
      if (!left.length) said.push('  Nothing that is observed differs from what was reported now: what had been left has its old size again.');
      for (const one of left.slice(0, 10)) said.push(...leftSaid(one, reached));
      if (left.length > 10) said.push(`  .. and ${left.length - 10} more that weren't told.`);
      return said;
    }
    function leftSaid(one, reached) {
      const seen = one.seen, kind = seen.box === 'content-box' ? '' : `, its ${seen.box}`;
      const said = [`  Not told of ${seen.item.name}${kind}: reported ${sized(seen.last)}, now ${sized(seen.now)}.`,
        `    Observer ${seen.observer.id + 1}, ${called(seen.observer)}.`,
        `    ${seen.item.name} is at depth ${one.depth}; the last round had reached depth ${reached}, and only deeper elements are told ` +
          'in the same update.'];
      if (one.first) said.push(`    It is observed since the callback of observer ${one.first.observer.id + 1}, ${called(one.first.observer)}.`);
      for (const other of one.by) {
        const whose = other.observer === seen.observer ? 'the callback of this observer'
          : `the callback of observer ${other.observer.id + 1}, ${called(other.observer)}`;
        const told = other.targets.map(id => `${nameById(id)}`).join(', ');
        const change = other.moved.filter(change => change.seen === seen).pop();
        said.push(`    Changed by ${whose}, as it was told of ${told}: ${sized(change.from)} -> ${sized(change.to)}`);
        for (const text of other.by) said.push(`      ${text}`);
        if (!other.by.length) said.push('      no attribute, child or text: a style sheet, a scroll position or an image perhaps');
      }
      if (!one.by.length && !one.first) said.push('    No callback of this update was seen to change it: a style sheet, an image or a font perhaps.');
      said.push(`    To mend: ${mend(one)}`);
      return said;
    }
    const nameById = id => names.has(id) ? names.get(id).name : `element ${id}`;
    // How to mend it, by who changed what.
    function mend(one) {
      const target = one.seen.item.name, frame = 'requestAnimationFrame';
      if (one.first && !one.by.length) {
        return `begin to observe ${target} outside of a resize callback, or in ${frame}: its first size is then told in the next update.`;
      }
      if (!one.by.length) return `find what changes ${target} while resize callbacks run, and do it in ${frame}.`;
      const changer = one.by[one.by.length - 1], itself = changer.observer === one.seen.observer && changer.targets.includes(one.seen.item.id);
      if (itself) return `the callback changes the very size that it is told of. Let CSS decide (a container query, min-height, aspect-ratio), ` +
        `observe an element around it whose size doesn't follow, or change it in ${frame}(() => ..): it is then told in the next update.`;
      const around = !changer.targets.includes(one.seen.item.id) && changer.targets.some(id => inside(id, one.element));
      if (around) return `${target} is around what the callback was told of, and follows its content. Give ${target} a size of its own ` +
        `(height, contain: size), or make the change in ${frame}(() => ..).`;
      return `one callback changes what another was told of at the same depth or above. Change ${target} from one place only, ` +
        `or make the change in ${frame}(() => ..): it is then told in the next update.`;
    }
    function inside(id, outer) {
      for (let at = names.has(id) ? names.get(id).ref.deref() : null; at;) {
        if (at === outer) return true;
        const view = at.ownerDocument.defaultView;
        at = up(at) || (view && view !== window && view.frameElement) || null;
      }
      return false;
    }

    // ---- what the wrappers call ----
    const hub = {
      safely, flush, reports,
      rows: () => rows,
      made(native, kind, view, callback, options) {
        const at = place();
        const o = { id: observers.length, kind, document: documentOf(view.document), at, callback: callback.name || '',
          targets: new Map(), root: null };
        const row = { what: 'observer', id: o.id, kind, document: o.document.id, at, callback: o.callback };
        if (kind === 'intersection') {
          const root = native.root;
          if (root) o.root = new WeakRef(root);
          Object.assign(row, { root: !root ? null : root.nodeType === 9 ? 'document ' + documentOf(root).id : itemOf(root).id,
            margin: native.rootMargin, scroll: native.scrollMargin || '', thresholds: Array.from(native.thresholds),
            delay: native.delay || 0, visible: Boolean(native.trackVisibility) });
        }
        known.set(native, o);
        observers.push(o);
        add(row);
        if (call) call.made.push(o);
      },
      observed(native, element, options) {
        const o = observerOf(native);
        if (!o) return;
        const item = itemOf(element), box = o.kind === 'resize' ? String(options && options.box || 'content-box') : null;
        watchRoots(element);
        const old = o.targets.get(item);
        if (!(old && old.box === box)) {
          o.targets.delete(item);
          const seen = { observer: o, item, box, last: null, now: [-1, -1] };
          o.targets.set(item, seen);
          if (call) call.made.push(seen);
        }
        add({ what: 'observe', observer: o.id, element: item.id, box, again: Boolean(old) });
      },
      unobserved(native, element) {
        const o = observerOf(native);
        if (!o) return;
        const item = itemOf(element);
        o.targets.delete(item);
        waitsNoMore(o);
        add({ what: 'unobserve', observer: o.id, element: item.id });
        if (call) call.made.push(o);
      },
      disconnected(native) {
        const o = observerOf(native);
        if (!o) return;
        o.targets.clear();
        waitsNoMore(o);
        add({ what: 'disconnect', observer: o.id });
        if (call) call.made.push(o);
      },
      took(native, entries) {
        const o = observerOf(native);
        if (o && entries.length) add({ what: 'take', observer: o.id, entries: entries.map(entryRow) });
      },
      // Runs a callback, with what is noted before and after it.
      called(native, kind, entries, run) {
        const o = observerOf(native);
        const one = o ? safely(() => kind === 'resize' ? resized(o, entries) : intersected(o, entries)) : null;
        try { return run(); } finally { if (one) safely(() => ended(one)); }
      },
      frame(error, run) {
        safely(() => { inUpdate(true); taken(); });
        try { return run(); } finally {
          safely(() => {
            const records = taken();
            if (records.length) add({ what: 'frame', update: update.number, at: place(error).slice(0, 1), by: texts(records) });
          });
        }
      },
      media(list, query, view) {
        const held = documentOf(view.document), key = held.id + ' ' + query;
        if (lists.has(key)) return;
        lists.set(key, list);
        add({ what: 'media', id: lists.size - 1, document: held.id, query, matches: list.matches });
        const number = lists.size - 1;
        list.addEventListener('change', event => safely(() => {
          add({ what: 'change', update: inUpdate().number, media: number, matches: event.matches });
        }));
      },
      event(view, event) {
        if (event.type === 'scroll') {
          const target = event.target, isPage = target.nodeType === 9;
          if (!isPage && target.nodeType !== 1) return;
          const at = isPage ? viewportOf(target).scroll : [target.scrollLeft, target.scrollTop, target.scrollWidth, target.scrollHeight];
          add({ what: 'scroll', update: inUpdate().number, at, target: isPage ? 'document ' + documentOf(target).id : itemOf(target).id });
        } else if (event.type === 'resize' && event.target === view) {
          const size = viewportOf(view.document);
          add({ what: 'resize', update: inUpdate().number, document: documentOf(view.document).id, viewport: size.viewport, window: size.window });
        } else if (event.type === 'error' && /ResizeObserver loop/.test(event.message)) {
          looped(view.document, event.message);
        } else if (event.type === 'error' && event.target === view) {
          add({ what: 'script-error', message: String(event.message), file: event.filename, line: event.lineno, column: event.colno });
          flush();
        }
      },
      joined(view) {
        const held = documentOf(view.document);
        if (held.mutations) return;
        held.mutations = new view.MutationObserver(records => safely(() => { noteFrames(records); mutated(records); }));
        held.mutations.observe(view.document, ALL_CHANGES);
      },
      act(words) { add({ what: 'action', words }); },
      // Ends the recording between two updates, so that none of it is cut.
      stop() {
        hub.record();
        stopped = true;
        return rows.length;
      },
      // The whole recording, with the boxes as they are now.
      record() {
        safely(() => { taken(); measure(null, null); });
        flush();
        return { format: 'mifdagus recording 1', page: window.location.href, agent: window.navigator.userAgent,
          ratio: window.devicePixelRatio, rows };
      },
    };
    // A frame whose page the recorder isn't in yet, as when it stands in the page as a file.
    function noteFrames(records) {
      for (const record of records) for (const node of record.addedNodes || []) {
        if (node.localName === 'iframe' || node.querySelector && node.querySelector('iframe')) {
          for (const frame of node.localName === 'iframe' ? [node] : node.querySelectorAll('iframe')) watchFrame(frame);
        }
      }
    }
    const watchedFrames = new WeakSet();
    function watchFrame(frame) {
      if (watchedFrames.has(frame)) return;
      watchedFrames.add(frame);
      const enter = () => safely(() => {
        let view = null;
        try { view = frame.contentWindow; void view.document; } catch (e) { view = null; }
        if (!view) add({ what: 'left-out', element: itemOf(frame).id, why: 'a frame of another origin' });
        else if (!view[NAME]) {
          add({ what: 'late', element: itemOf(frame).id, why: 'the recorder entered this frame only after it was loaded' });
          view.Function('hub', 'name', `(${install})(window, hub, name)`)(hub, NAME);
        }
      });
      frame.addEventListener('load', enter);
    }
    return hub;
  }

  // ---- in each window; it refers to nothing outside, since a frame gets its own copy ----
  function install(window, hub, name) {
    'use strict';
    const { Reflect, Proxy, Object } = window;
    Object.defineProperty(window, name, { value: Object.freeze({ hub, record: () => hub.record(), reports: hub.reports }), configurable: true });
    function replace(holder, key, traps) {
      const has = Object.getOwnPropertyDescriptor(holder, key);
      if (has && typeof has.value === 'function') Object.defineProperty(holder, key, Object.assign(has, { value: new Proxy(has.value, traps) }));
    }
    // Only the constructor's callback is exchanged: observers, prototypes and errors are the browser's own.
    function replaceClass(key, kind) {
      const native = window[key];
      if (typeof native !== 'function') return;
      replace(window, key, { construct(native, given, target) {
        const callback = given[0];
        if (typeof callback !== 'function') return Reflect.construct(native, given, target);
        let made = null;
        const called = function (...told) { return hub.called(made, kind, told[0], () => Reflect.apply(callback, this, told)); };
        made = Reflect.construct(native, [called, ...given.slice(1)], target);
        hub.safely(() => hub.made(made, kind, window, callback, given[1]));
        return made;
      } });
      const prototype = native.prototype;
      const has = Object.getOwnPropertyDescriptor(prototype, 'constructor');
      Object.defineProperty(prototype, 'constructor', Object.assign(has, { value: window[key] }));
      const after = note => ({ apply(method, self, given) {
        const result = Reflect.apply(method, self, given);
        hub.safely(() => note(self, result, ...given));
        return result;
      } });
      replace(prototype, 'observe', after((self, result, element, options) => hub.observed(self, element, options)));
      replace(prototype, 'unobserve', after((self, result, element) => hub.unobserved(self, element)));
      replace(prototype, 'disconnect', after(self => hub.disconnected(self)));
      replace(prototype, 'takeRecords', after((self, result) => hub.took(self, result)));
    }
    replaceClass('ResizeObserver', 'resize');
    replaceClass('IntersectionObserver', 'intersection');
    replace(window, 'requestAnimationFrame', { apply(native, self, given) {
      const callback = given[0];
      if (typeof callback !== 'function') return Reflect.apply(native, self, given);
      const error = new window.Error();
      return Reflect.apply(native, self, [function (...told) { return hub.frame(error, () => Reflect.apply(callback, this, told)); }]);
    } });
    replace(window, 'matchMedia', { apply(native, self, given) {
      const list = Reflect.apply(native, self, given);
      hub.safely(() => hub.media(list, String(given[0]), window));
      return list;
    } });
    for (const kind of ['scroll', 'resize', 'error']) {
      window.addEventListener(kind, event => hub.safely(() => hub.event(window, event)), { capture: true, passive: true });
    }
    window.addEventListener('pagehide', () => hub.flush());
    hub.safely(() => hub.joined(window));
  }

  const hub = above ? above.hub : makeHub(window, send);
  install(window, hub, NAME);
})();
