// Several galleys as the chapters of one book, made together by the engine. A chapter opens with the list that it has in the book.
import { read, withFolio } from '../galley/galley.js';
import { madeText, toEnds } from '../galley/list.js';
import { measure } from '../galley/measure.js';
import { sentence } from '../galley/refusals.js';
import { comma } from '../galley/words.js';
import { button, byId, download, el, link, put, state } from './dom.js';

/**
 * @typedef {import('./app.js').App} App
 * @typedef {{name: string, bytes: Uint8Array}} Chapter
 * @typedef {{chapters: Chapter[], made: any, ms: number}} Book  made: the engine's answer, null while it is being made
 */

const LAST_FOLIO = 9999;

/** @param {App} app */
export function bookView(app) {
  const root = byId('view-book'), { book } = app;
  if (!book) return put(root, el('p', { class: 'verdict' }, 'Open several galleys at once: they are the chapters of a book.'));
  if (!book.made) {
    return put(root, el('div', { class: 'state busy', role: 'status' }, el('p', {}, el('b', {}, 'The book is being made…')),
      el('p', {}, button('Stop', () => app.stopBook()))), order(app, book));
  }
  if (!book.made.ok) return put(root, refusedBook(book), order(app, book));
  put(root, totals(book.made), chapters(app, book), order(app, book));
}

/** @param {Book} book */
function refusedBook({ made, chapters }) {
  const at = made.number === 29 || made.number === 30 ? chapters[made.place - 1] : null;
  return state(`The book is refused: ${sentence(made)}`, at && el('p', {}, `That is ${at.name}.`),
    made.number === 11 && el('p', {}, 'No choice of a page list for each chapter is valid where its chapter opens.'));
}

/** @param {any} made */
function totals(made) {
  const told = [['pages', made.p], ['X', made.x], ['Y', made.y], ['T', made.t], ['W', made.w]];
  return el('ul', { class: 'figs num' }, told.map(([words, value]) => el('li', {}, el('b', {}, comma(value)), ` ${words}`)),
    el('li', { class: 'soft' }, 'the fewest turns of all choices of a list for each chapter, and of those the least white space'));
}

/** The chapters with the folios on which they open.
 * @param {App} app @param {Book} book */
function chapters(app, { chapters: all, made }) {
  let folio = read(all[0].bytes).folio;
  const rows = all.map((chapter, k) => {
    const from = folio, bytes = k && from <= LAST_FOLIO ? withFolio(chapter.bytes, from) : chapter.bytes;
    const g = read(bytes), ends = toEnds(made.lists[k], g.width), L = measure(g, ends, chapter.name);
    const text = () => madeText({ p: L.p, x: L.X, y: L.Y, t: L.T, w: L.W }, ends, g.width);
    folio += ends.length;
    const open = from <= LAST_FOLIO ? link(chapter.name, () => app.openChapter(chapter.name, bytes, made.lists[k])) : chapter.name;
    return el('tr', {}, el('td', { class: 'r', 'data-t': 'chapter' }, k + 1), el('th', { scope: 'row' }, open),
      el('td', { 'data-t': 'folios' }, `${from}–${folio - 1}`),
      [L.p, L.X, L.Y, L.W].map((v, c) => el('td', { class: 'r', 'data-t': ['p', 'X', 'Y', 'W'][c] }, comma(v))),
      el('td', {}, link('write its list', () => download(`${chapter.name.replace(/\.(galley|txt)$/, '')}.list`, text()))));
  });
  const heads = [['', 'r'], ['chapter', ''], ['folios', ''], ['p', 'r'], ['X', 'r'], ['Y', 'r'], ['W', 'r'], ['', '']];
  const head = heads.map(([words, cls]) => el('th', { class: cls || null, scope: 'col' }, words));
  return el('table', { class: 'led' }, el('thead', {}, el('tr', {}, head)), el('tbody', {}, rows));
}

/** The order of the chapters, to be changed.
 * @param {App} app @param {Book} book */
function order(app, { chapters: all }) {
  const move = (k, to) => {
    const next = all.slice();
    next.splice(to, 0, ...next.splice(k, 1));
    app.openBook(next);
  };
  const row = (chapter, k) => el('li', {}, `${chapter.name} `,
    button('↑', () => move(k, k - 1), { disabled: k === 0, 'aria-label': `${chapter.name} one chapter earlier` }), ' ',
    button('↓', () => move(k, k + 1), { disabled: k === all.length - 1, 'aria-label': `${chapter.name} one chapter later` }), ' ',
    button('✕', () => app.openBook(all.filter((one) => one !== chapter)),
      { 'aria-label': `leave ${chapter.name} out`, disabled: all.length < 2 }));
  return el('section', { class: 'noprint' },
    el('h2', {}, 'Chapters ', el('small', {}, 'the first opens on its own folio, each later one on the folio after the last')),
    el('ol', { class: 'ui chapters' }, all.map(row)));
}
