// A row a list: p X Y T W, how many turns more than the best, and the verdict in words; below it every rule that is broken.
import { meaningOf } from '../../galley/refusals.js';
import { countable } from '../../galley/measure.js';
import { comma, length, plural } from '../../galley/words.js';
import { el, link } from '../dom.js';

/**
 * @typedef {import('../app.js').App} App
 * @typedef {import('./show.js').Scene} Scene
 * @typedef {import('../../galley/measure.js').Measured} Measured
 */

const HEADS = [['p', 'pages'], ['X', 'turns from citations to their floats'], ['Y', 'turns from the first page to the last'],
  ['T', 'weighted sum of X and Y'], ['W', 'white space']];

const FEWEST = 'the fewest turns that the specification allows, and of those the least white space';

/** @param {App} app @param {Scene} scene */
export function summary(app, scene) {
  const heads = HEADS.map(([k, t]) => el('th', { class: 'r', scope: 'col' }, el('abbr', { title: t }, k)));
  return [el('table', { class: 'sum' },
    el('thead', {}, el('tr', {}, el('th', { scope: 'col' }, 'list'), heads,
      el('th', { class: 'r', scope: 'col' }, 'more'), el('th', { scope: 'col' }, 'verdict'))),
    el('tbody', {}, scene.order.map((L) => row(app, scene, L)))), scene.hand.map((L) => faults(L))];
}

/** @param {App} app @param {Scene} scene @param {Measured} L */
function row(app, { g, best }, L) {
  const counted = (v) => el('span', { class: 'soft' }, countable(L) ? `(${comma(v)})` : '–');
  const value = (k, v) => L.ok || k === 'p' ? el('b', {}, comma(v)) : counted(v);
  const numbers = [L.p, L.X, L.Y, L.T, L.W].map((v, k) => el('td', { class: 'r', 'data-t': HEADS[k][0] }, value(HEADS[k][0], v)));
  const more = best && L !== best && L.ok ? L.T - best.T : null, own = app.lists.some((list) => list.name === L.name);
  return el('tr', {}, el('th', { scope: 'row' }, L.name), numbers,
    el('td', { class: `r ${more ? 'loud' : 'soft'}`, 'data-t': 'more' }, more === null ? '' : more ? `+${more}` : '0'),
    el('td', { class: 'say' }, L === best ? FEWEST : verdict(g, L, best),
      ' ', L !== best && L.ok && own && link('To the desk', () => app.toDesk(L.name), { 'data-desk': L.name })));
}

/** @param {any} g @param {Measured} L @param {Measured | null} best */
function verdict(g, L, best) {
  if (!L.ok) return refusedWords(L, best);
  if (!best) return 'Accepted.';
  const more = L.T - best.T;
  if (more > 0) return el('span', { class: 'loud' }, `${plural(more, 'turn')} more than the best.`);
  if (L.W > best.W) return `No list has fewer turns; the best has ${length(g, L.W - best.W)} less white space.`;
  return 'No list has fewer turns, and none with as many has less white space.';
}

/** @param {Measured} L @param {Measured | null} best */
function refusedWords(L, best) {
  const { rule, page, short } = L.first, others = L.pages.filter((one) => one.bad.length).length - 1;
  const words = rule === 18 ? [`the list ends after page ${page} before everything is placed.`] : [`${meaningOf(rule)} (${short}).`];
  if (rule !== 18 && others > 0) words.push(others === 1 ? 'One more page breaks a rule.' : `${others} more pages break a rule.`);
  if (countable(L) && best) {
    const d = L.T - best.T, other = d > 0 ? `${d} more than the best` : `${-d} fewer than any list that keeps the rules`;
    const than = d === 0 ? 'as many as the best' : other;
    words.push(`Counted all the same it has ${plural(L.T, 'turn')}, ${than}.`);
  }
  return [el('span', { class: 'bad' }, `Refused, rule ${rule} on page ${page}: `), words.join(' ')];
}

/** Every rule that every page breaks, where there is more than one.
 * @param {Measured} L */
function faults(L) {
  const all = L.pages.flatMap((page) => page.bad);
  if (!all.length) return null;
  return el('details', { class: 'faults' }, el('summary', {}, `${L.name} breaks ${plural(all.length, 'rule')}, each with its numbers`),
    el('ul', {}, all.map(({ page, rule, numbers }) =>
      el('li', {}, el('b', {}, `page ${page}, rule ${rule}`), `: ${numbers.join('; ')}`))));
}
