// Elements. Words become text nodes and attributes, never markup. Only a drawing is parsed: it is made of numbers and escaped words.

/** @typedef {Node | string | number | null | undefined | false | any[]} Child */

/**
 * An element; attributes that are null or false are left out, `onclick` and the like are listeners.
 * @param {string} tag @param {Record<string, any>} [attributes] @param {...Child} children @returns {any}
 */
export function el(tag, attributes = {}, ...children) {
  const element = document.createElement(tag);
  for (const [name, value] of Object.entries(attributes)) {
    if (value === null || value === undefined || value === false) continue;
    if (name.startsWith('on')) element.addEventListener(name.slice(2), value);
    else element.setAttribute(name, value === true ? '' : String(value));
  }
  put(element, ...children);
  return element;
}

/** Puts children in place of what an element has.
 * @param {Element} element @param {...Child} children */
export function put(element, ...children) {
  const all = /** @type {any[]} */ (children.flat(/** @type {any} */ (Infinity)));
  element.replaceChildren(...all.filter((c) => c !== null && c !== undefined && c !== false && c !== '')
    .map((c) => typeof c === 'number' ? String(c) : c));
}

const mould = typeof document === 'undefined' ? null : document.createElement('template');

/** A drawing as an element.
 * @param {string} svg made by draw/ @returns {any} */
export function drawn(svg) {
  mould.innerHTML = svg;
  return mould.content.firstElementChild;
}

/** @param {string} id @returns {any} */
export const byId = (id) => document.getElementById(id);

/** A button that reads like a link.
 * @param {Child} words @param {() => void} does @param {Record<string, any>} [attributes] */
export const link = (words, does, attributes = {}) => el('button', { type: 'button', class: 'link', onclick: does, ...attributes }, words);

/** @param {Child} words @param {() => void} does @param {Record<string, any>} [attributes] */
export const button = (words, does, attributes = {}) => el('button', { type: 'button', onclick: does, ...attributes }, words);

/** A box that says what went wrong.
 * @param {Child} head @param {...Child} body */
export const state = (head, ...body) => el('div', { class: 'state', role: 'status' }, el('p', {}, el('b', {}, head)), ...body);

/** Hands a file to the person.
 * @param {string} name @param {string} text */
export function download(name, text) {
  const a = el('a', { href: URL.createObjectURL(new Blob([text], { type: 'text/plain' })), download: name });
  a.click();
  setTimeout(() => URL.revokeObjectURL(a.href), 5000);
}
