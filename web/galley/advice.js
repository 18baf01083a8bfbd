// Where no pagination exists (11): how far the least heights would have to be lowered, and how much of an opening could stay.
// The words are the command's (`make --advise`).
import { withHeights } from './galley.js';

/**
 * @typedef {import('./galley.js').Galley} Galley
 * @typedef {(bytes: Uint8Array, opening: ArrayLike<number>) => Promise<boolean>} Exists  whether a pagination begins with the opening
 */

/**
 * The greatest number below the last with which there is a success, if there is one with 0. What succeeds with a number
 * succeeds with every lower one: of htMin that is a theorem, and lowering lastMin forbids no page that was allowed.
 * @param {number} last @param {(n: number) => Promise<boolean>} succeeds @returns {Promise<number | null>}
 */
async function greatest(last, succeeds) {
  if (last === 0 || !await succeeds(0)) return null;
  let found = 0, none = last;
  while (found + 1 < none) {
    const middle = found + Math.floor((none - found) / 2);
    if (await succeeds(middle)) found = middle; else none = middle;
  }
  return found;
}

/** @param {Galley} g @param {number} height */
function filled(g, height) {
  const perMille = Math.floor(height * 1000 / Math.max(1, g.htMax));
  return `${height} (${Math.floor(perMille / 10)}.${perMille % 10} % of htMax)`;
}

/** @param {Galley} g @param {string} name @param {number} asked @param {number} found */
const told = (g, name, asked, found) => `${name} is ${asked}; the greatest at which a pagination exists is ${filled(g, found)}`;

/** @param {string} name @param {number} asked */
const inVain = (name, asked) => asked === 0 ? '' : `; no ${name} is low enough by itself`;

/**
 * Each least height lowered by itself, or else both.
 * @param {Galley} g @param {(htMin: number, lastMin: number) => Promise<boolean>} exists
 */
async function lowered(g, exists) {
  const { htMin } = g, lastMin = g.lastMin ?? 0;
  if (!await exists(0, 0)) return [`no pagination exists even at htMin 0${lastMin === 0 ? '' : ' and lastMin 0'}`];
  const one = await greatest(htMin, (h) => exists(h, lastMin)), two = await greatest(lastMin, (h) => exists(htMin, h));
  if (one !== null && two !== null) return [told(g, 'htMin', htMin, one), `or ${told(g, 'lastMin', lastMin, two)}`];
  if (one !== null) return [told(g, 'htMin', htMin, one) + inVain('lastMin', lastMin)];
  if (two !== null) return [told(g, 'lastMin', lastMin, two) + inVain('htMin', htMin)];
  const low = await greatest(htMin, (h) => exists(h, 0)) ?? 0, last = await greatest(lastMin, (h) => exists(low, h)) ?? 0;
  const both = `htMin ${filled(g, low)} and lastMin ${filled(g, last)}`;
  return [`neither htMin nor lastMin is low enough by itself; a pagination exists at ${both}`];
}

/** How many pages of the opening could stay.
 * @param {Galley} g @param {ArrayLike<number>} opening @param {Exists} exists */
async function shortened(g, opening, exists) {
  const pages = Math.floor(opening.length / g.width);
  if (pages === 0) return [];
  const kept = await greatest(pages, (n) => exists(g.bytes, Array.prototype.slice.call(opening, 0, n * g.width)));
  if (kept === null) return ['no pagination exists without the opening either'];
  if (kept === 0) return ['a pagination exists without the opening, but none that begins with its first page'];
  return [`a pagination exists that begins with ${kept} of the opening’s ${pages} pages, and no more`];
}

/**
 * What would help a galley that has no pagination.
 * @param {Galley} g @param {ArrayLike<number>} opening @param {Exists} exists @returns {Promise<string[]>}
 */
export async function advice(g, opening, exists) {
  const tried = new Map([[`${g.htMin} ${g.lastMin ?? 0}`, Promise.resolve(false)]]);
  const at = (htMin, lastMin) => {
    const key = `${htMin} ${lastMin}`;
    if (!tried.has(key)) tried.set(key, exists(withHeights(g, htMin, lastMin), opening));
    return tried.get(key);
  };
  return [...await lowered(g, at), ...await shortened(g, opening, exists)];
}
