'use strict';
// What is kept: in the page's storage, and in its address for sharing, compressed.

const KEPT = 'mifdagus-playground', LONGEST_ADDRESS = 60000;
const kept = {
  read(name) {
    try { return localStorage.getItem(`${KEPT}-${name}`); } catch (fault) { return null; }
  },
  // Whether it was kept: storage may be full or turned off.
  write(name, text) {
    try { localStorage.setItem(`${KEPT}-${name}`, text); return true; } catch (fault) { return false; }
  },
};

async function through(bytes, stream) {
  const writer = stream.writable.getWriter(), reader = stream.readable.getReader(), parts = [];
  let failed = false;
  const written = writer.write(bytes).then(() => writer.close()).catch(() => { failed = true; });
  try {
    for (;;) {
      const { done, value } = await reader.read();
      if (done) break;
      parts.push(value);
    }
  } catch (fault) { failed = true; }
  await written;
  const whole = new Uint8Array(parts.reduce((length, part) => length + part.length, 0));
  let at = 0;
  for (const part of parts) { whole.set(part, at); at += part.length; }
  return { whole, failed };
}
function inBase64(bytes) {
  let text = '';
  for (let at = 0; at < bytes.length; at += 32768) text += String.fromCharCode.apply(null, bytes.subarray(at, at + 32768));
  return btoa(text).replace(/\+/g, '-').replace(/\//g, '_').replace(/=+$/, '');
}
function fromBase64(text) {
  let plain = text.replace(/-/g, '+').replace(/_/g, '/').replace(/[^A-Za-z0-9+/]/g, '');
  if (plain.length % 4 === 1) plain = plain.slice(0, -1);
  return Uint8Array.from(atob(plain), letter => letter.charCodeAt(0));
}
const packed = async text => inBase64((await through(new TextEncoder().encode(text), new CompressionStream('deflate-raw'))).whole);

// The part of the address after `#` for a script: the length of its text in bytes, and the text, compressed.
async function addressOf(text) {
  return `length=${new TextEncoder().encode(text).length}&script=${await packed(text)}`;
}
// { text, cut } for such a part; null if it holds no script. What can be read of one that was cut is there.
async function textOfAddress(part) {
  const words = new URLSearchParams(part), script = words.get('script');
  if (script === null) return null;
  const { whole, failed } = await through(fromBase64(script), new DecompressionStream('deflate-raw'));
  const text = new TextDecoder().decode(whole);
  return { text, cut: failed || whole.length !== Number(words.get('length')) };
}
