// With which page end turns are lost for good: often far from where the float waits.
import { leafOf } from '../../galley/page.js';
import { button, el } from '../dom.js';

/**
 * @typedef {import('../app.js').App} App
 * @typedef {import('./show.js').Scene} Scene
 * @typedef {import('../../galley/measure.js').Measured} Measured
 */

/** @param {App} app @param {Scene} scene */
export function lostBox(app, { g, hand, best }) {
  const dear = best ? hand.filter((L) => L.ok && L.T > best.T) : [];
  if (!dear.length) return null;
  return el('section', { id: 'lost' }, el('h2', {}, 'Lost for good ',
    el('small', {}, 'after this page end even the best list has more turns: often far from where the float waits')),
  dear.map((L) => ofList(app, g, L, dear.length > 1)));
}

/** @param {App} app @param {any} g @param {Measured} L @param {boolean} named */
function ofList(app, g, L, named) {
  const lost = app.lostOf(L), name = named ? el('b', {}, `${L.name}: `) : null;
  if (lost === null) {
    const told = app.maker.lastMs ? `a step takes about ${(app.maker.lastMs / 1000).toFixed(1)} s` : 'a step makes the galley once';
    return el('p', {}, name, button('Find it', () => app.findLost(L), { 'data-find': L.name }), ` by halves; ${told}.`);
  }
  if (lost === 'looking') return el('p', { class: 'soft' }, name, 'looking, by halves…');
  const waits = (ids) => {
    const pages = [...new Set(ids.map((id) => L.byId.get(id)).filter((F) => F?.turns > 0).map((F) => F.cp.q))];
    return pages.length ? el('span', { class: 'soft' }, ` (cited on page ${pages.join(', ')})`) : null;
  };
  return [name && el('p', {}, name), el('ul', { class: 'lost' }, lost.map((one) => el('li', {},
    el('a', { href: `#s${leafOf(g, one.page)}` }, one.words), waits(one.floats)))),
  lost.length === 0 && el('p', {}, 'Nothing is lost.')];
}
