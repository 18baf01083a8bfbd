// What is opened: files, text that is pasted, samples that are inside. A galley is told from a list by its first record.
import { looksLikeGalley, looksPacked, pack } from '../galley/galley.js';

/** No galley and no list is longer; what is longer is not read. */
export const LONGEST_FILE = 4e6;

/**
 * @typedef {{name: string, bytes: Uint8Array}} File
 * @typedef {{name: string, kind: 'galley', bytes: Uint8Array} | {name: string, kind: 'list', text: string}
 *   | {name: string, kind: 'refused', why: string}} Sorted
 * @typedef {object} Sample  of a galley, or of several as a book
 * @property {string} name @property {string} [about] @property {string} [galley] base64 @property {string} [best] as `make` prints it
 * @property {{name: string, galley: string}[]} [galleys] @property {{name: string, text: string}[]} lists
 */

/** Tells a galley from a list.
 * @param {File} file @returns {Sorted} */
export function sort({ name, bytes }) {
  if (bytes.length > LONGEST_FILE) return { name, kind: 'refused', why: 'it is longer than any galley or list' };
  if (looksPacked(bytes)) return { name, kind: 'galley', bytes };
  const text = new TextDecoder().decode(bytes);
  if (!looksLikeGalley(text)) return { name, kind: 'list', text };
  const packed = pack(text);
  return packed.ok === true ? { name, kind: 'galley', bytes: packed.bytes } : { name, kind: 'refused', why: packed.why };
}

/** Samples that the build put inside, gzipped.
 * @param {string} base64 @returns {Promise<Sample[]>} */
export async function samples(base64) {
  const stream = new Blob([fromBase64(base64)]).stream().pipeThrough(new (/** @type {any} */ (globalThis).DecompressionStream)('gzip'));
  return JSON.parse(await new Response(stream).text());
}

/** @param {string} text */
export function fromBase64(text) {
  const raw = atob(text.trim()), out = new Uint8Array(raw.length);
  for (let k = 0; k < raw.length; k++) out[k] = raw.charCodeAt(k);
  return out;
}

/** @param {Uint8Array} bytes */
export function toBase64(bytes) {
  let raw = '';
  for (let k = 0; k < bytes.length; k += 8192) raw += String.fromCharCode(...bytes.subarray(k, k + 8192));
  return btoa(raw);
}
