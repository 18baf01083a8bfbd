// Marks of a drawing as text. Words go through `esc`, numbers through `n`: nothing else gets into a drawing.
import { n } from '../layout/layout.js';

/** @param {unknown} words */
export const esc = (words) => String(words).replace(/[&<>"']/g, (c) => `&#${c.charCodeAt(0)};`);

/** @param {string} cls @param {number} x @param {number} y @param {number} w @param {number} h */
export const rect = (cls, x, y, w, h) => `<rect class="${cls}" x="${n(x)}" y="${n(y)}" width="${n(w)}" height="${n(h)}"/>`;

/** @param {string} cls @param {string} d */
export const path = (cls, d) => `<path class="${cls}" d="${d}"/>`;

/** @param {string} cls @param {number} x @param {number} y @param {number} r */
export const circle = (cls, x, y, r) => `<circle class="${cls}" cx="${n(x)}" cy="${n(y)}" r="${n(r)}"/>`;

/** @param {string} cls @param {number} x @param {number} y @param {unknown} words @param {string} [anchor] */
export const text = (cls, x, y, words, anchor = '') =>
  `<text class="${cls}" x="${n(x)}" y="${n(y)}"${anchor ? ` text-anchor="${anchor}"` : ''}>${esc(words)}</text>`;

/** @param {string} words */
export const title = (words) => `<title>${esc(words)}</title>`;

/**
 * A drawing; with words it is an image for a screen reader, without it is hidden from one.
 * @param {string} cls @param {number} w @param {number} h @param {string} marks @param {string} [words]
 */
export function drawing(cls, w, h, marks, words = '') {
  const told = words ? `role="img" aria-label="${esc(words)}"` : 'aria-hidden="true"';
  return `<svg class="${cls}" width="${n(w)}" height="${n(h)}" viewBox="0 0 ${n(w)} ${n(h)}" ${told}>${marks}</svg>`;
}
