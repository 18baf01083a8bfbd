// What a reload must not lose. Work on a galley is kept in the browser's own storage under the galley's sum, the view of a window in
// the window's own. Two windows on one galley are told of each other: neither overwrites what it has not seen.

const WORK = 'barleychime.work.', LAST = 'barleychime.last', VIEW = 'barleychime.view';

/** A sum of bytes, 53 bits, as hexadecimal digits.
 * @param {Uint8Array} bytes */
export function sumOf(bytes) {
  let a = 0xdeadbeef, b = 0x41c6ce57;
  for (const byte of bytes) {
    a = Math.imul(a ^ byte, 2654435761);
    b = Math.imul(b ^ byte, 1597334677);
  }
  a = Math.imul(a ^ (a >>> 16), 2246822507) ^ Math.imul(b ^ (b >>> 13), 3266489909);
  b = Math.imul(b ^ (b >>> 16), 2246822507) ^ Math.imul(a ^ (a >>> 13), 3266489909);
  return (4294967296 * (2097151 & b) + (a >>> 0)).toString(16).padStart(14, '0');
}

/** A browser may forbid its storage; then nothing is kept.
 * @template T @param {() => T} does @param {T} otherwise */
function allowed(does, otherwise) {
  try { return does(); } catch { return otherwise; }
}

/** @param {string | null} text */
const parsed = (text) => allowed(() => JSON.parse(text ?? 'null'), null);

export class Store {
  /** @param {(key: string) => void} other called when another window has kept other work on the galley at hand */
  constructor(other) {
    /** @type {string} */ this.key = '';
    /** @type {string | null} */ this.seen = null;   // what was last read or written here
    this.contested = false;
    addEventListener('storage', (event) => {
      if (!this.key || event.key !== WORK + this.key || event.newValue === this.seen) return;
      this.contested = true;
      other(this.key);
    });
  }

  /** The work that is kept on a galley.
   * @param {string} key @returns {any} */
  read(key) {
    this.key = key;
    this.contested = false;
    this.seen = allowed(() => localStorage.getItem(WORK + key), null);
    return parsed(this.seen);
  }

  /**
   * Keeps work on the galley at hand.
   * @param {any} work @param {boolean} [force] @returns {boolean} false where there is no room
   */
  keep(work, force = false) {
    if (this.contested && !force) return true;
    this.contested = false;
    const before = parsed(this.seen), body = JSON.stringify({ ...work, at: 0 });
    if (before && !force && JSON.stringify({ ...before, at: 0 }) === body) return true;
    const text = JSON.stringify({ ...work, at: Date.now() });
    return allowed(() => {
      localStorage.setItem(WORK + this.key, text);
      localStorage.setItem(LAST, this.key);
      this.seen = text;
      return true;
    }, false);
  }

  /** The galleys on which work is kept, newest first.
   * @returns {{key: string, name: string, at: number, lists: number}[]} */
  all() {
    return allowed(() => Object.keys(localStorage), []).filter((key) => key.startsWith(WORK)).map((key) => {
      const work = parsed(allowed(() => localStorage.getItem(key), null));
      const { name = '?', at = 0, lists = [] } = work ?? {};
      return { key: key.slice(WORK.length), name: String(name), at: Number(at), lists: lists.length };
    }).sort((a, b) => b.at - a.at);
  }

  /** @param {string} key */
  drop(key) {
    allowed(() => localStorage.removeItem(WORK + key), undefined);
    if (key === this.key) this.seen = null;
  }

  dropAll() { for (const { key } of this.all()) this.drop(key); }

  /** The galley last worked on.
   * @returns {string} */
  last() { return allowed(() => localStorage.getItem(LAST), null) ?? ''; }

  /** This window's view.
   * @returns {any} */
  view() { return parsed(allowed(() => sessionStorage.getItem(VIEW), null)); }

  /** @param {any} view */
  keepView(view) { allowed(() => sessionStorage.setItem(VIEW, JSON.stringify(view)), undefined); }
}
