// What is shown where there is nothing to draw yet, or nothing at all.
import { recordAt } from '../../galley/galley.js';
import { sentence } from '../../galley/refusals.js';
import { comma } from '../../galley/words.js';
import { button, el, state } from '../dom.js';

/** @typedef {import('../app.js').App} App */

/** A galley that the engine refuses.
 * @param {App} app */
export function galleyRefused(app) {
  const { refused } = app;
  return state(`The galley is refused: ${sentence(refused)}`,
    refused.number && el('p', {}, `It is ${recordAt(app.bytes, refused.place)}.`),
    el('p', {}, 'Nothing can be drawn of it.'));
}

/** The best list is being made, or was stopped.
 * @param {App} app */
export function makingBox(app) {
  if (app.stopped) {
    return state('Making was stopped.', el('p', {}, button('Make the best list', () => app.makeBest(), { id: 'makeagain' })));
  }
  if (!app.making) return null;
  const { ceiling, work } = app.forecast, area = comma(Math.ceil(work / 250000));
  const known = `At most ${comma(ceiling)} pages are weighed, in a work area of ${area} MB. `;
  return el('div', { class: 'state busy', role: 'status' },
    el('p', {}, el('b', {}, 'The best list is being made. '), el('span', { id: 'elapsed', class: 'num' }, elapsed(app))),
    el('p', { class: 'sub' }, known, 'A chapter takes well under a second, the largest handbook some seconds. ',
      'Lists can be marked meanwhile.'),
    el('p', {}, button('Stop', () => app.stopMaking(), { id: 'stop' })));
}

/** @param {App} app */
export const elapsed = (app) => `${((performance.now() - app.makingSince) / 1000).toFixed(1)} s so far.`;

/** There is no best list.
 * @param {App} app */
export function noPagination(app) {
  const { best } = app;
  if (!best || best.ok) return null;
  if (best.number !== 11) return state(sentence(best));
  const { advice } = app;
  const told = advice === null ? el('p', {}, button('What would have to give?', () => app.advise(), { id: 'advise' }))
    : typeof advice === 'string' ? el('p', { class: 'soft' }, advice)
      : el('ul', { id: 'advice' }, advice.map((remark) => el('li', {}, remark, '.')));
  return state(sentence(best),
    el('p', {}, 'There is no best list to compare with. What would have to give is the designer’s to decide:'), told);
}
