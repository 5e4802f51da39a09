// A program and its settings as the fragment of an address, which isn't sent to any server: #1.SETTINGS.FUEL.TEXT. SETTINGS are
// letters (p: behind the prelude, z: TEXT is deflated), then the number that chooses an order, if one does, and then s and the number
// of sites, if it runs on some; TEXT is base64 with - and _ and without =.
'use strict';
(function (pict) {
  const LONGEST = 1048576;

  // What a stream of the browser makes of the bytes, or null where that is more than a text may have.
  async function through(bytes, stream) {
    const parts = [], reader = new Blob([bytes]).stream().pipeThrough(stream).getReader();
    let length = 0;
    for (let part; !(part = await reader.read()).done;) {
      parts.push(part.value);
      length += part.value.length;
      if (length > LONGEST) { await reader.cancel(); return null; }
    }
    return new Uint8Array(await new Blob(parts).arrayBuffer());
  }

  pict.toBase64 = function (bytes) {
    let text = '';
    for (let at = 0; at < bytes.length; at += 4096) text += String.fromCharCode(...bytes.subarray(at, at + 4096));
    return btoa(text).replace(/\+/g, '-').replace(/\//g, '_').replace(/=+$/, '');
  };

  pict.fromBase64 = function (text) {
    return Uint8Array.from(atob(text.replace(/-/g, '+').replace(/_/g, '/')), it => it.charCodeAt(0));
  };

  pict.toFragment = async function ({ text, bare, fuel, seed = '', sites = '' }) {
    const bytes = new TextEncoder().encode(text);
    const packed = typeof CompressionStream === 'function' ? await through(bytes, new CompressionStream('deflate-raw')) : null;
    return `#1.${bare ? '' : 'p'}${packed ? 'z' : ''}${seed}${sites && 's' + sites}.${fuel}.${pict.toBase64(packed || bytes)}`;
  };

  // The program of a fragment, or null. Nothing is run before somebody asks for it.
  pict.fromFragment = async function (fragment) {
    const found = /^#1\.(p?)(z?)((?:0|[1-9][0-9]{0,19})?)(?:s([1-9][0-9]?))?\.(0|[1-9][0-9]{0,9})\.([A-Za-z0-9_-]*)$/.exec(fragment);
    if (!found) return null;
    try {
      const packed = pict.fromBase64(found[6]);
      const bytes = found[2] ? await through(packed, new DecompressionStream('deflate-raw')) : packed;
      if (!bytes || bytes.length > LONGEST) return null;
      const decoded = new TextDecoder('utf-8', { fatal: true }).decode(bytes);
      return { text: decoded, bare: !found[1], fuel: found[5], seed: found[3], sites: found[4] || '' };
    } catch {
      return null;
    }
  };
})(globalThis.pict = globalThis.pict || {});
