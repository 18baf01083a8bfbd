// The whole list at a glance: a column a leaf, and below it the turns lost to the best so far.
import { countable, turnsByLeaf } from '../../galley/measure.js';
import { leafOf } from '../../galley/page.js';
import { leafWord, plural } from '../../galley/words.js';
import { lanes, overview } from '../../layout/layout.js';
import { stair } from '../../draw/plots.js';
import { staff } from '../../draw/staff.js';
import { drawn, el } from '../dom.js';

/**
 * @typedef {import('../app.js').App} App
 * @typedef {import('./show.js').Scene} Scene
 */

/** @param {App} app @param {Scene} scene */
export function overviewOf(app, scene) {
  const { g, hand, best, order, lo, hi, part, leaves } = scene;
  if (hi - lo + 1 <= (g.sides === 2 ? 4 : 7)) return null;
  const Z = overview(g, hi - lo + 1), ways = order.map((L) => lanes(L, Z)), one = hand.length === 1 ? hand[0] : null;
  const steps = best && one && countable(one) ? against(g, one, best, hi) : null;
  const most = steps ? Math.max(1, ...steps.map(Math.abs)) : 1;
  const lost = one ? lostByLeaf(g, app.lostOf(one)) : new Map();
  const column = (i) => {
    const turns = lost.get(i) ?? 0, label = `${leafWord(g)} ${i}${turns ? `, ${plural(turns, 'turn')} lost for good` : ''}`;
    return el('a', { href: `#s${i}`, 'data-leaf': i, class: i === part ? 'part' : null, 'aria-label': label },
      order.map((L, c) => drawn(staff(g, L, ways[c], i, Z, c ? { rows: ways[c].lanes } : {}).svg)),
      steps && drawn(stair(steps[i - lo], i > lo ? steps[i - lo - 1] : 0, Z.w, most)),
      lost.size > 0 && el('b', { class: 'gone' }, turns ? `+${turns}` : '\u00a0'), el('i', {}, i));
  };
  const below = steps ? '; the steps below count the turns lost to the best so far' : '';
  const told = `a column is a ${leafWord(g)}${below}${lost.size ? ', the figures those lost for good' : ''}`;
  return [el('h2', {}, 'Overview ', el('small', {}, told)), el('nav', { class: 'map', 'aria-label': 'Overview' }, leaves.map(column))];
}

/** @param {any} g @param {any} L @param {any} best @param {number} to */
function against(g, L, best, to) {
  const other = turnsByLeaf(g, best, to);
  return turnsByLeaf(g, L, to).map((turns, k) => turns - other[k]);
}

/** Turns lost for good, by leaf.
 * @param {any} g @param {any} lost */
export function lostByLeaf(g, lost) {
  const out = new Map();
  for (const one of Array.isArray(lost) ? lost : []) out.set(leafOf(g, one.page), (out.get(leafOf(g, one.page)) ?? 0) + one.turns);
  return out;
}
