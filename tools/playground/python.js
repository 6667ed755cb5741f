'use strict';
// What the translated Python (translation.py) calls: the parts of Python's own types and library that it uses. Lists and tuples are arrays,
// integers are numbers that become BigInts where they need more than 53 bits, dictionaries and sets hold their keys by value.

// ---- things and exceptions ----

class Thing {
  constructor(...given) { this.$__init__(...given); }
  $__init__() {}
  get $__dict__() {
    return { $setdefault: (name, value) => this['$' + name] ??= value, $get: (name, other = null) => this['$' + name] ?? other };
  }
}
class Exception extends Thing { $__init__(...given) { this.$args = given; } }
class ValueError extends Exception {}
class UnicodeDecodeError extends ValueError {}
class KeyError extends Exception {}
class IndexError extends Exception {}
class AttributeError extends Exception {}
class TypeError extends Exception {}
class RuntimeError extends Exception {}
class StopIteration extends Exception {}
class OSError extends Exception {}
// JavaScript's own errors are exceptions too, so that a fault of the program is reported as one.
function exception(thrown) {
  if (thrown instanceof Thing) return thrown;
  const found = new Exception(String(thrown && thrown.message || thrown));
  found.stack = thrown && thrown.stack;
  return found;
}
function isinstance(value, kind) {
  if (Array.isArray(kind)) return kind.some(one => isinstance(value, one));
  return kind.$holds ? kind.$holds(value) : value instanceof kind;
}

// ---- functions ----

class Named { constructor(parts) { this.parts = parts; } }
// The named arguments at the end of what a function was given.
function named(given) { return given.length && given[given.length - 1] instanceof Named ? given.pop().parts : {}; }
function signed(made, names, takesNamed) {
  made.$names = names;
  made.$takesNamed = takesNamed;
  return made;
}
function placed(made, given, parts) {
  if (!made || !made.$names || made.$takesNamed) return [...given, new Named(parts)];
  const all = given.slice();
  for (const [name, value] of Object.entries(parts)) all[made.$names.indexOf(name)] = value;
  return all;
}
const call = (made, given, parts) => made(...placed(made, given, parts));
const call_method = (owner, name, given, parts) => owner[name](...placed(owner[name], given, parts));
const make = (kind, given, parts) => new kind(...placed(kind.prototype.$__init__, given, parts));
const unbound = found => typeof found === 'function' ? (self, ...given) => found.apply(self, given) : found;
function bound(owner, name) {
  const found = owner[name];
  return typeof found === 'function' && !Object.prototype.hasOwnProperty.call(owner, name) ? found.bind(owner) : found;
}
function of_class(kind, name) { return kind[name] !== undefined ? kind[name] : unbound(kind.prototype[name]); }
// A class of several bases: the last one, with what the others have, the first of them nearest.
function mixed(...bases) {
  let made = bases.pop();
  for (const base of bases.reverse()) {
    made = class extends made {};
    Object.defineProperties(made.prototype, { ...Object.getOwnPropertyDescriptors(base.prototype), copyOf: { value: base } });
  }
  return made;
}
// What a method finds above the class that it stands in.
function above(self, kind, name) {
  let place = Object.getPrototypeOf(self);
  while (place !== kind.prototype && !(Object.prototype.hasOwnProperty.call(place, 'copyOf') && place.copyOf === kind)) place = Object.getPrototypeOf(place);
  return Object.getPrototypeOf(place)[name] || (() => null);
}
// Answers are kept by what was given; all are forgotten when there would be too many.
function lru_cache(made, most = 128) {
  const kept = new Dict();
  return (...given) => {
    const key = given.length === 1 ? given[0] : given;
    if (!kept.has(key)) {
      if (kept.size >= most) kept.$clear();
      kept.set(key, made(...given));
    }
    return kept.read(key);
  };
}
function contextmanager(made) {
  return (...given) => {
    const run = made(...given);
    return { $__enter__: () => run.next().value, $__exit__: () => { run.next(); } };
  };
}

// ---- truth, order and equality ----

function truth(value) {
  if (value === true || value === false) return value;
  if (value === null || value === undefined || value === 0 || value === '' || value === 0n) return false;
  if (Array.isArray(value)) return value.length > 0;
  if (value instanceof Bytes) return value.text.length > 0;
  if (value instanceof Dict || value instanceof PySet) return value.size > 0;
  return true;
}
const both = (value, other) => truth(value) ? other() : value;
const first_of = (value, other) => truth(value) ? value : other();
function equals(one, other) {
  if (one === other) return true;
  if (one == null || other == null) return one == other;
  if (typeof one !== 'object' || typeof other !== 'object') {
    return typeof one !== typeof other && typeof one !== 'string' && typeof other !== 'string' && one == other;
  }
  if (Array.isArray(one)) return Array.isArray(other) && one.length === other.length && one.every((part, at) => equals(part, other[at]));
  if (one instanceof Bytes) return other instanceof Bytes && one.text === other.text;
  if (one instanceof Dict) return other instanceof Dict && one.size === other.size && one.$items().every(([key, value]) => other.has(key) && equals(other.read(key), value));
  if (one instanceof PySet) return other instanceof PySet && one.size === other.size && [...one].every(key => other.has(key));
  return one.$__eq__ ? one.$__eq__(other) : false;
}
function is_less(one, other) {
  if (!Array.isArray(one)) return one instanceof Bytes ? one.text < other.text : one < other;
  for (let at = 0; at < one.length && at < other.length; at++) {
    if (!equals(one[at], other[at])) return is_less(one[at], other[at]);
  }
  return one.length < other.length;
}
const compared = (one, other) => is_less(one, other) ? -1 : is_less(other, one) ? 1 : 0;

// ---- numbers ----

const isWhole = value => typeof value === 'number' || typeof value === 'bigint' || typeof value === 'boolean';
const fitted = value => value >= -9007199254740991n && value <= 9007199254740991n ? Number(value) : value;
function counted_(one, other, quick, exact) {
  const found = quick(Number(one), Number(other));
  if (typeof one !== 'bigint' && typeof other !== 'bigint' && Number.isSafeInteger(found)) return found;
  return fitted(exact(BigInt(one), BigInt(other)));
}
function add(one, other) {
  if (typeof one === 'number' && typeof other === 'number') {
    const sum = one + other;
    if (sum <= 9007199254740991 && sum >= -9007199254740991) return sum;
  }
  if (typeof one === 'string') return one + other;
  if (Array.isArray(one)) return one.concat(other);
  if (one instanceof Bytes) return new Bytes(one.text + other.text);
  return counted_(one, other, (a, b) => a + b, (a, b) => a + b);
}
function extended(one, other) {
  if (!Array.isArray(one)) return add(one, other);
  for (const part of other) one.push(part);
  return one;
}
function subtract(one, other) {
  if (typeof one === 'number' && typeof other === 'number') return one - other;
  if (one instanceof PySet) return one.$difference(other);
  return counted_(one, other, (a, b) => a - b, (a, b) => a - b);
}
function multiply(one, other) {
  if (typeof one === 'number' && typeof other === 'number') {
    const product = one * other;
    if (Number.isSafeInteger(product)) return product + 0;
  }
  if (!isWhole(one) || !isWhole(other)) return repeated(isWhole(one) ? other : one, Number(isWhole(one) ? one : other));
  return counted_(one, other, (a, b) => a * b, (a, b) => a * b);
}
function repeated(value, times) {
  if (typeof value === 'string') return value.repeat(Math.max(0, times));
  if (value instanceof Bytes) return new Bytes(value.text.repeat(Math.max(0, times)));
  return [].concat(...Array.from({ length: Math.max(0, times) }, () => value));
}
function floor_divide(one, other) {
  if (typeof one === 'number' && typeof other === 'number') return Math.floor((one - modulo(one, other)) / other + 0.5);
  const dividend = BigInt(one), divisor = BigInt(other), quotient = dividend / divisor;
  return fitted(dividend % divisor !== 0n && (dividend < 0n) !== (divisor < 0n) ? quotient - 1n : quotient);
}
function modulo(one, other) {
  if (typeof one === 'string') return formatted(one, Array.isArray(other) ? other : [other]);
  if (typeof one === 'number' && typeof other === 'number') {
    const rest = one % other;
    return rest !== 0 && (rest < 0) !== (other < 0) ? rest + other : rest + 0;
  }
  return subtract(one, multiply(floor_divide(one, other), other));
}
const divide = (one, other) => Number(one) / Number(other);
const shift = (one, by) => fitted(BigInt(one) << BigInt(by));
const power = (one, by) => fitted(BigInt(one) ** BigInt(by));
const either = (one, other) => one instanceof PySet ? new PySet([...one, ...other]) : fitted(BigInt(one) | BigInt(other));
const grouped = value => String(value).replace(/\B(?=(\d{3})+$)/g, ',');

// ---- bytes ----

class Bytes {
  constructor(text) { this.text = text; }
  get length() { return this.text.length; }
  *[Symbol.iterator]() { for (let at = 0; at < this.text.length; at++) yield this.text.charCodeAt(at); }
  static of(array) {
    const parts = [];
    for (let at = 0; at < array.length; at += 32768) parts.push(String.fromCharCode.apply(null, array.subarray(at, at + 32768)));
    return new Bytes(parts.join(''));
  }
  array() {
    const found = new Uint8Array(this.text.length);
    for (let at = 0; at < found.length; at++) found[at] = this.text.charCodeAt(at);
    return found;
  }
  $decode(coding = 'utf-8', errors = 'strict') {
    if (coding === 'latin-1') return this.text;
    if (coding === 'ascii') {
      if (!/[\x80-\xff]/.test(this.text)) return this.text;
      if (errors === 'replace') return this.text.replace(/[\x80-\xff]/g, '\ufffd');
      throw new UnicodeDecodeError();
    }
    if (!/[\x80-\xff]/.test(this.text)) return this.text;
    try {
      return new TextDecoder('utf-8', { fatal: errors === 'strict', ignoreBOM: true }).decode(this.array());
    } catch (fault) {
      throw new UnicodeDecodeError();
    }
  }
  $hex() { return [...this].map(byte => byte.toString(16).padStart(2, '0')).join(''); }
  $isascii() { return !/[\x80-\xff]/.test(this.text); }
}
const textOf = value => value instanceof Bytes ? value.text : value;
const like = (value, text) => value instanceof Bytes ? new Bytes(text) : text;

// ---- texts: of letters and of bytes alike ----

const SPACE = /[ \t\n\r\x0b\x0c]+/;
const escaped = text => text.replace(/[.*+?^${}()|[\]\\\/-]/g, '\\$&');
const ends = new Map();
// The expression for any of these letters, or for white space, at the beginning or end of a text.
function atEnd(letters, before, behind) {
  const key = before + (letters == null ? ' \t\n\r\x0b\x0c' : textOf(letters)) + behind;
  if (!ends.has(key)) ends.set(key, new RegExp(`${before}[${escaped(key.slice(before.length, key.length - behind.length))}]+${behind}`));
  return ends.get(key);
}
function split(text, by, most) {
  if (by != null) {
    const parts = text.split(by);
    return most === undefined || most < 0 || parts.length <= most + 1 ? parts : [...parts.slice(0, most), parts.slice(most).join(by)];
  }
  return text.split(SPACE).filter(part => part);
}
function countOf(text, part, from = 0, to = text.length) {
  let count = 0;
  for (let at = text.indexOf(part, from); at >= 0 && at + part.length <= to; at = text.indexOf(part, at + part.length)) count++;
  return count;
}
const TEXTS = {
  $split(by, most) { return split(textOf(this), by == null ? null : textOf(by), most).map(part => like(this, part)); },
  $join(parts) { return this instanceof Bytes ? new Bytes([...parts].map(textOf).join(this.text)) : [...parts].join(this); },
  $startswith(start) { return Array.isArray(start) ? start.some(one => textOf(this).startsWith(textOf(one))) : textOf(this).startsWith(textOf(start)); },
  $endswith(end) { return Array.isArray(end) ? end.some(one => textOf(this).endsWith(textOf(one))) : textOf(this).endsWith(textOf(end)); },
  $strip(letters) { return this.$lstrip(letters).$rstrip(letters); },
  $lstrip(letters) { return like(this, textOf(this).replace(atEnd(letters, '^', ''), '')); },
  $rstrip(letters) { return like(this, textOf(this).replace(atEnd(letters, '', '$'), '')); },
  $replace(old, now) { return like(this, textOf(this).split(textOf(old)).join(textOf(now))); },
  $count(part, from, to) { return countOf(textOf(this), textOf(part), from, to); },
  $find(part, from = 0) { return textOf(this).indexOf(textOf(part), from); },
  $index(part, from = 0) {
    const found = textOf(this).indexOf(textOf(part), from);
    if (found < 0) throw new ValueError('substring not found');
    return found;
  },
  $ljust(width, by = ' ') { return like(this, textOf(this).padEnd(width, textOf(by))); },
  $rjust(width, by = ' ') { return like(this, textOf(this).padStart(width, textOf(by))); },
  $zfill(width) { return like(this, textOf(this).padStart(width, '0')); },
  $lower() { return like(this, textOf(this).toLowerCase()); },
  $upper() { return like(this, textOf(this).toUpperCase()); },
  $islower() { return textOf(this) === textOf(this).toLowerCase() && textOf(this) !== textOf(this).toUpperCase(); },
  $isupper() { return textOf(this) === textOf(this).toUpperCase() && textOf(this) !== textOf(this).toLowerCase(); },
  $isspace() { return /^[ \t\n\r\x0b\x0c]+$/.test(textOf(this)); },
  $capitalize() { return like(this, textOf(this).slice(0, 1).toUpperCase() + textOf(this).slice(1).toLowerCase()); },
  $title() { return like(this, textOf(this).toLowerCase().replace(/(^|[^a-z])([a-z])/g, (all, before, letter) => before + letter.toUpperCase())); },
  $rfind(part) { return textOf(this).lastIndexOf(textOf(part)); },
  $removeprefix(part) { return like(this, textOf(this).startsWith(textOf(part)) ? textOf(this).slice(textOf(part).length) : textOf(this)); },
  $removesuffix(part) { return like(this, textOf(part) && textOf(this).endsWith(textOf(part)) ? textOf(this).slice(0, -textOf(part).length) : textOf(this)); },
  $rsplit(by, most) {
    const parts = split(textOf(this), by == null ? null : textOf(by));
    const cut = most === undefined || most < 0 ? 0 : Math.max(0, parts.length - most - 1);
    return [...(cut ? [parts.slice(0, cut + 1).join(textOf(by))] : []), ...parts.slice(cut ? cut + 1 : 0)].map(part => like(this, part));
  },
  $isdigit() { return /^[0-9]+$/.test(textOf(this)); },
  $partition(by) {
    const text = textOf(this), part = textOf(by), at = text.indexOf(part);
    return (at < 0 ? [text, '', ''] : [text.slice(0, at), part, text.slice(at + part.length)]).map(one => like(this, one));
  },
  $rpartition(by) {
    const text = textOf(this), part = textOf(by), at = text.lastIndexOf(part);
    return (at < 0 ? ['', '', text] : [text.slice(0, at), part, text.slice(at + part.length)]).map(one => like(this, one));
  },
  $splitlines() {
    const parts = textOf(this).split(/\r\n|[\n\r\x0b\x0c]/);
    if (!parts[parts.length - 1]) parts.pop();
    return parts.map(part => like(this, part));
  },
};
const OF_LETTERS = {
  $encode() { return Bytes.of(new TextEncoder().encode(this)); },
  $isalpha() { return /^\p{L}+$/u.test(this); },
  $isalnum() { return /^[\p{L}\p{N}]+$/u.test(this); },
  $isprintable() { return this >= ' ' && this <= '~' && this.length === 1 || !/[\p{C}\p{Zl}\p{Zp}]|(?! )\p{Zs}/u.test(this); },
  $isascii() { return /^[\x00-\x7f]*$/.test(this); },
  $format(...given) {
    let next = 0;
    return this.replace(/\{(\d*)(:,)?\}/g, (all, place, commas) => {
      const value = given[place === '' ? next++ : Number(place)];
      return commas ? grouped(value) : shownAs(value);
    });
  },
};

// ---- lists ----

const LISTS = {
  $append(value) { this.push(value); return null; },
  $extend(values) { for (const value of values) this.push(value); return null; },
  $insert(place, value) { this.splice(place, 0, value); return null; },
  $remove(value) { this.splice(this.$index(value), 1); return null; },
  $index(value) {
    const place = this.findIndex(one => equals(one, value));
    if (place < 0) throw new ValueError('not in the list');
    return place;
  },
  $count(value) { return this.filter(one => equals(one, value)).length; },
  $pop(place = -1) {
    if (!this.length) throw new IndexError('pop from an empty list');
    return place === -1 ? this.pop() : this.splice(place < 0 ? this.length + place : place, 1)[0];
  },
  $popleft() { return this.shift(); },
  $appendleft(value) { this.unshift(value); return null; },
  $sort(...given) { sortInPlace(this, named(given)); return null; },
  $reverse() { this.reverse(); return null; },
  $copy() { return this.slice(); },
  $clear() { this.length = 0; return null; },
};
function install(prototype, methods) {
  for (const [name, method] of Object.entries(methods)) Object.defineProperty(prototype, name, { value: method, writable: true });
}
install(String.prototype, TEXTS);
install(String.prototype, OF_LETTERS);
install(Bytes.prototype, TEXTS);
install(Array.prototype, LISTS);
function sortInPlace(values, { key, reverse }) {
  if (key) {
    const keyed = values.map(value => [key(value), value]);
    keyed.sort((one, other) => compared(one[0], other[0]));
    keyed.forEach((pair, place) => { values[place] = pair[1]; });
  } else values.sort(compared);
  if (truth(reverse)) values.reverse();
}

class ListThing extends Array {
  static get [Symbol.species]() { return Array; }
  constructor(...given) { super(); this.$__init__(...given); }
  $__init__(values = []) { this.$extend(values); }
}
// A tuple whose parts have names.
function namedtuple(name, fields) {
  const made = class extends Array {
    static get [Symbol.species]() { return Array; }
    constructor(...given) { super(); for (const value of given) this.push(value); }
  };
  [...fields].forEach((field, place) => Object.defineProperty(made.prototype, '$' + field, { get() { return this[place]; } }));
  return made;
}

// ---- dictionaries and sets ----

let things = 0;
const numbers = new WeakMap();
function numberOf(value) {
  let found = numbers.get(value);
  if (!found) numbers.set(value, found = ++things);
  return found;
}
// What a key is held by: itself, or for arrays and bytes a text that is the same for equal ones.
function held(key) {
  if (Array.isArray(key)) return '\0[' + key.map(part => { const inner = held(part); return heldText(inner); }).join('\0,') + '\0]';
  if (key instanceof Bytes) return '\0b' + key.text;
  if (key instanceof PySet) return '\0{' + [...key].map(part => heldText(held(part))).sort().join('\0,') + '\0}';
  return key === undefined ? null : typeof key === 'boolean' ? Number(key) : key;
}
function heldText(inner) {
  if (typeof inner === 'string') return '\0s' + inner;
  return inner !== null && (typeof inner === 'object' || typeof inner === 'function') ? '\0o' + numberOf(inner) : '\0n' + String(inner);
}
// The values by what holds their keys; `keys` has those keys that are held by a text.
class Dict {
  constructor(pairs = []) {
    this.entries = new Map();
    this.keys = null;
    for (const [key, value] of pairs) this.set(key, value);
  }
  get size() { return this.entries.size; }
  by(key) { return typeof key === 'string' || typeof key === 'number' ? key : held(key); }
  keyOf(by) { return this.keys && this.keys.has(by) ? this.keys.get(by) : by; }
  has(key) { return this.entries.has(this.by(key)); }
  set(key, value) {
    const by = this.by(key);
    if (by !== key && !this.entries.has(by)) (this.keys ||= new Map()).set(by, key);
    this.entries.set(by, value);
  }
  read(key) {
    const found = this.entries.get(this.by(key));
    return found === undefined ? this.missing(key) : found;
  }
  missing(key) { throw new KeyError(key); }
  *[Symbol.iterator]() { for (const by of this.entries.keys()) yield this.keyOf(by); }
  $get(key, other = null) {
    const found = this.entries.get(this.by(key));
    return found === undefined ? other : found;
  }
  $items() {
    const found = [];
    for (const [by, value] of this.entries) found.push([this.keys ? this.keyOf(by) : by, value]);
    return found;
  }
  $keys() { return [...this]; }
  $values() { return [...this.entries.values()]; }
  $setdefault(key, value = null) {
    const found = this.entries.get(this.by(key));
    if (found !== undefined) return found;
    this.set(key, value);
    return value;
  }
  $update(...given) {
    const parts = named(given);
    if (given.length) for (const [key, value] of given[0] instanceof Dict ? given[0].$items() : given[0]) this.set(key, value);
    for (const key of Object.keys(parts)) this.set(key, parts[key]);
    return null;
  }
  $pop(key, ...other) {
    const by = this.by(key), found = this.entries.get(by);
    if (found === undefined && other.length) return other[0];
    if (found === undefined) throw new KeyError(key);
    this.remove(by);
    return found;
  }
  remove(by) {
    this.entries.delete(by);
    if (this.keys) this.keys.delete(by);
  }
  $popitem() {
    const pair = this.$items().pop();
    this.remove(this.by(pair[0]));
    return pair;
  }
  $copy() {
    const found = new Dict();
    found.entries = new Map(this.entries);
    found.keys = this.keys && new Map(this.keys);
    return found;
  }
  $clear() { this.entries.clear(); this.keys = null; return null; }
}
class Count extends Dict {
  missing() { return 0; }
  $most_common(most) {
    const pairs = this.$items();
    sortInPlace(pairs, { key: pair => -pair[1] });
    return most === undefined ? pairs : pairs.slice(0, most);
  }
}
class PySet {
  constructor(values = []) {
    this.entries = new Map();
    for (const value of values) this.entries.set(held(value), value);
  }
  get size() { return this.entries.size; }
  has(value) { return this.entries.has(held(value)); }
  [Symbol.iterator]() { return this.entries.values(); }
  $add(value) { const by = held(value); if (!this.entries.has(by)) this.entries.set(by, value); return null; }
  $discard(value) { this.entries.delete(held(value)); return null; }
  $remove(value) { if (!this.entries.delete(held(value))) throw new KeyError(value); return null; }
  $update(...all) { for (const values of all) for (const value of values) this.$add(value); return null; }
  $clear() { this.entries.clear(); return null; }
  $pop() { const [by, value] = this.entries.entries().next().value; this.entries.delete(by); return value; }
  $copy() { return new PySet(this); }
  $isdisjoint(other) { return ![...this].some(value => contains(other, value)); }
  $difference(other) { return new PySet([...this].filter(value => !contains(other, value))); }
  $union(other) { return new PySet([...this, ...other]); }
  $intersection(other) { return new PySet([...this].filter(value => contains(other, value))); }
  $issubset(other) { return [...this].every(value => contains(other, value)); }
}
class SetThing extends PySet {
  constructor(...given) { super(); this.$__init__(...given); }
  $__init__(values = []) { this.$update(values); }
}
const plain = dictionary => Object.fromEntries(dictionary.$items());

// ---- items and slices ----

function item(owner, key) {
  if (owner instanceof Dict) return owner.read(key);
  const length = owner.length, place = key < 0 ? length + Number(key) : Number(key);
  if (!(place >= 0 && place < length)) throw new IndexError('index out of range');
  return owner instanceof Bytes ? owner.text.charCodeAt(place) : owner[place];
}
function put(owner, key, value) {
  if (owner instanceof Dict) owner.set(key, value);
  else owner[key < 0 ? owner.length + key : key] = value;
}
function put_slice(owner, from, to, values) {
  const end = length => length < 0 ? Math.max(0, owner.length + length) : Math.min(owner.length, length);
  const first = end(from ?? 0), last = Math.max(first, end(to ?? owner.length));
  owner.splice(first, last - first, ...values);
}
function drop(owner, key) {
  if (owner instanceof Dict) owner.$pop(key);
  else if (key !== null && typeof key === 'object') throw new TypeError('slices are not deleted');
  else owner.splice(key < 0 ? owner.length + key : key, 1);
}
function slice(owner, from, to, step) {
  const text = owner instanceof Bytes ? owner.text : owner;
  if (step == null || step === 1) {
    const part = text.slice(from ?? 0, to ?? text.length);
    return owner instanceof Bytes ? new Bytes(part) : part;
  }
  if (step !== -1 || from !== null || to !== null) throw new ValueError('a slice with this step');
  return typeof text === 'string' ? like(owner, [...text].reverse().join('')) : text.slice().reverse();
}
function contains(owner, value) {
  if (typeof owner === 'string') return owner.includes(value);
  if (owner instanceof Dict || owner instanceof PySet) return owner.has(value);
  if (owner instanceof Bytes) return typeof value === 'number' ? owner.text.includes(String.fromCharCode(value)) : owner.text.includes(value.text);
  if (typeof value === 'string' && Array.isArray(owner)) return owner.includes(value);
  for (const one of owner) if (equals(one, value)) return true;
  return false;
}

// ---- texts from values ----

function shownAs(value) {
  if (typeof value === 'string') return value;
  if (value === null || value === undefined) return 'None';
  if (value === true) return 'True';
  if (value === false) return 'False';
  return typeof value === 'object' ? reprOf(value) : String(value);
}
function reprOf(value) {
  if (typeof value === 'string') return value.includes("'") && !value.includes('"') ? `"${value}"` : `'${value.replace(/['\\]/g, '\\$&')}'`;
  if (Array.isArray(value)) return `[${value.map(reprOf).join(', ')}]`;
  if (value instanceof Bytes) return 'b' + reprOf(value.text);
  if (value instanceof Exception) return `${value.constructor.name}(${(value.$args || []).map(reprOf).join(', ')})`;
  return value instanceof Thing ? value.constructor.name : typeof value === 'object' && value ? '{..}' : shownAs(value);
}
// A form is cut once: texts, and between them a function for each value, which takes one more before it if the width is one of them.
const forms = new Map();
function formatted(form, given) {
  let parts = forms.get(form);
  if (!parts) forms.set(form, parts = cutForm(form));
  let text = parts[0];
  for (let at = 1, next = 0; at < parts.length; at += 2) {
    text += (parts[at].length > 1 ? parts[at](given[next++], given[next++]) : parts[at](given[next++])) + parts[at + 1];
  }
  return text;
}
function cutForm(form) {
  const parts = [''];
  let last = 0;
  for (const found of form.matchAll(/%(?:%|(-?)(0?)(\d*|\*)([sdrXxi])|\.(\d)f)?/g)) {
    if (found[0] === '%') throw new Error(`the form ${form}`);
    parts[parts.length - 1] += form.slice(last, found.index) + (found[0] === '%%' ? '%' : '');
    last = found.index + found[0].length;
    if (found[0] !== '%%') parts.push(shownBy(...found.slice(1)), '');
  }
  parts[parts.length - 1] += form.slice(last);
  return parts;
}
function shownBy(left, zero, width, kind, places) {
  if (places !== undefined) return value => Number(value).toFixed(Number(places));
  const plainly = { s: shownAs, r: reprOf, d: value => String(Number.isInteger(value) ? value : whole(value)), i: value => String(whole(value)),
    x: value => value.toString(16), X: value => value.toString(16).toUpperCase() }[kind];
  const filled = (text, length) => left ? text.padEnd(length) : !zero ? text.padStart(length)
    : text.startsWith('-') ? '-' + text.slice(1).padStart(length - 1, '0') : text.padStart(length, '0');
  if (width === '*') return (length, value) => filled(plainly(value), length);
  return width ? value => filled(plainly(value), Number(width)) : plainly;
}

// ---- built-in functions ----

const sized = value => value instanceof Dict || value instanceof PySet ? value.size
  : typeof value === 'string' && /[\ud800-\udfff]/.test(value) ? [...value].length : value.length;
function most(given, isBetter) {
  if (given.length === 2 && typeof given[0] === 'number' && typeof given[1] === 'number') return isBetter(given[1], given[0]) ? given[1] : given[0];
  const { key, ...more } = named(given), values = given.length > 1 ? given : given[0];
  let found, foundKey, any = false;
  for (const value of values) {
    const by = key ? key(value) : value;
    if (!any || isBetter(by, foundKey)) [found, foundKey, any] = [value, by, true];
  }
  if (!any && 'default' in more) return more.default;
  if (!any) throw new ValueError('of nothing');
  return found;
}
function whole(value = 0, base = 10) {
  if (isWhole(value)) return typeof value === 'boolean' ? Number(value) : value;
  const text = textOf(value).trim();
  if (base === 16) return parseInt(text, 16);
  if (!/^[-+]?[0-9]+$/.test(text)) throw new ValueError('not a number: ' + text);
  return fitted(BigInt(text));
}
function* ranged(from, to, step) {
  for (let at = from; step > 0 ? at < to : at > to; at += step) yield at;
}
const kindOf = holds => ({ $holds: holds });
const callable = (made, holds) => Object.assign(made, { $holds: holds });
const builtins = {
  len: sized, isinstance,
  max: (...given) => most(given, (one, other) => is_less(other, one)),
  min: (...given) => most(given, is_less),
  tuple: callable((values = []) => [...values], Array.isArray),
  list: callable((values = []) => [...values], Array.isArray),
  dict: callable((...given) => {
    const found = given[0] instanceof Dict ? given[0].$copy() : new Dict();
    found.$update(...(given[0] instanceof Dict ? given.slice(1) : given));
    return found;
  }, value => value instanceof Dict),
  set: callable((values = []) => new PySet(values), value => value instanceof PySet),
  frozenset: callable((values = []) => new PySet(values), value => value instanceof PySet),
  str: callable(shownAs, value => typeof value === 'string'),
  bytes: callable(values => new Bytes(String.fromCharCode(...values)), value => value instanceof Bytes),
  int: callable(whole, isWhole),
  float: callable(value => Number(textOf(value)), value => typeof value === 'number' && !Number.isInteger(value)),
  bool: callable(truth, value => typeof value === 'boolean'),
  range: (...given) => [...(given.length === 1 ? ranged(0, given[0], 1) : ranged(given[0], given[1], given.length > 2 ? given[2] : 1))],
  sorted: (...given) => { const parts = named(given), values = [...given[0]]; sortInPlace(values, parts); return values; },
  enumerate: function* (values, first = 0) { let at = first; for (const value of values) yield [at++, value]; },
  zip: function* (...all) {
    const runs = all.map(one => one[Symbol.iterator]());
    for (;;) {
      const next = runs.map(run => run.next());
      if (!next.length || next.some(one => one.done)) return;
      yield next.map(one => one.value);
    }
  },
  sum: (values, first = 0) => { let all = first; for (const value of values) all = add(all, value); return all; },
  any: values => { for (const value of values) if (truth(value)) return true; return false; },
  all: values => { for (const value of values) if (!truth(value)) return false; return true; },
  reversed: values => [...values].reverse(),
  next: (run, ...other) => {
    const found = run.next();
    if (!found.done) return found.value;
    if (other.length) return other[0];
    throw new StopIteration();
  },
  iter: values => values[Symbol.iterator](),
  map: function* (made, values) { for (const value of values) yield made(value); },
  filter: function* (made, values) { for (const value of values) if (truth(made ? made(value) : value)) yield value; },
  divmod: (one, other) => [floor_divide(one, other), modulo(one, other)],
  abs: value => value < 0 ? -value : value,
  getattr: (owner, name, ...other) => {
    const found = owner == null ? undefined : owner['$' + name];
    if (found !== undefined) return typeof found === 'function' ? bound(owner, '$' + name) : found;
    if (other.length) return other[0];
    throw new AttributeError(name);
  },
  hasattr: (owner, name) => owner['$' + name] !== undefined,
  chr: code => String.fromCodePoint(code), ord: text => text.codePointAt(0), repr: reprOf, type: value => value.constructor, print: () => null,
  callable: value => typeof value === 'function',
};
builtins.dict.$fromkeys = (keys, value = null) => new Dict([...keys].map(key => [key, value]));

// ---- modules ----

const defined = new Map(), taken = new Map();
function define(name, body) { defined.set(name, body); }
function take(name, part) {
  const inner = part && !(taken.get(name) && taken.get(name)['$' + part] !== undefined) ? `${name}.${part}` : '';
  if (inner && (defined.has(inner) || taken.has(inner))) return take(inner);
  if (!taken.has(name)) {
    const body = defined.get(name), found = {};
    if (!body) throw new Error(`there is no module ${name}`);
    taken.set(name, found);
    body(found, take);
  }
  return part ? taken.get(name)['$' + part] : taken.get(name);
}
