// The spreads: a column a leaf, a staff a list, the best one lowest. A column opens large.
import { lanes, detail } from '../../layout/layout.js';
import { leafWord, plural } from '../../galley/words.js';
import { staff } from '../../draw/staff.js';
import { key } from '../../draw/key.js';
import { drawn, el } from '../dom.js';
import { openLarge } from './large.js';
import { lostByLeaf } from './overview.js';

/**
 * @typedef {import('../app.js').App} App
 * @typedef {import('./show.js').Scene} Scene
 */

const CAPTION = 23;

/** @param {App} app @param {Scene} scene */
export function reelOf(app, scene) {
  const { g, hand, order, part, leaves } = scene, Z = detail(g), one = hand.length === 1 ? hand[0] : null;
  const over = Math.max(0, ...order.flatMap((L) => L.pages.map((page) => (page.t - g.htMax) * Z.scale)));
  Z.over = over > 1 ? Math.min(34, over) : 0;
  const ways = order.map((L) => lanes(L, Z)), anyBad = order.some((L) => L.pages.some((page) => page.bad.length));
  const lost = one ? lostByLeaf(g, app.lostOf(one)) : new Map(), word = g.sides === 2 ? 'Spread' : 'Page';
  const column = (i) => {
    let height = 0;
    const cells = order.map((L, c) => {
      const options = { rows: c ? ways[c].lanes : undefined, anyBad, anyOver: Z.over > 0, label: `${word} ${i}, ${L.name}` };
      const staffed = staff(g, L, ways[c], i, Z, options), came = (ways[c].over.get(i) ?? []).filter((A) => A.i0 < i && !A.back).length;
      height += staffed.height + CAPTION;
      return el('div', {}, drawn(staffed.svg), caption(L, c, i, word, came, i === part, lost.get(i) ?? 0));
    });
    const col = el('section', { class: 'col', id: `s${i}`, tabindex: 0, 'aria-label': `${word} ${i}: Enter shows it large` }, cells);
    col.style.width = `${Z.w}px`;
    col.style.containIntrinsicSize = `${Z.w}px ${Math.ceil(height)}px`;
    const open = () => openLarge(scene, i);
    col.addEventListener('click', open);
    col.addEventListener('keydown', (event) => { if (event.key === 'Enter') open(); });
    return col;
  };
  const left = (i, k) => k && leaves[k - 1] < i - 1 ? gap(scene, leaves[k - 1] + 1, i - 1) : null;
  const columns = leaves.map((i, k) => [left(i, k), column(i)]);
  const told = 'figures are drawn at the head and tables at the foot; a list says only on which page they stand. '
    + 'Choose one to see it large';
  return [el('h2', {}, `${word}s `, el('small', {}, told)),
    el('ul', { class: 'key', 'aria-label': 'Key' }, key(g, order).map(({ svg, words }) => el('li', {}, drawn(svg), words))),
    watched(el('div', { class: 'reel', id: 'reel' }, columns))];
}

/** Marks in the overview what is in view of the reel.
 * @param {HTMLElement} reel */
function watched(reel) {
  const seen = new IntersectionObserver((entries) => {
    for (const { target, isIntersecting } of entries) {
      document.querySelector(`#view-show .map a[href="#${target.id}"]`)?.classList.toggle('here', isIntersecting);
    }
  });
  for (const column of reel.querySelectorAll('.col')) seen.observe(column);
  return reel;
}

/**
 * @param {any} L @param {number} c @param {number} i @param {string} word @param {number} came @param {boolean} part
 * @param {number} lost
 */
function caption(L, c, i, word, came, part, lost) {
  const here = L.byLeaf.has(i) ? '' : i > L.leaf1 ? ' has ended' : ' has not begun';
  return el('span', { class: 'cap' }, c === 0 && [el('b', {}, `${word} ${i}`), ', '], L.name, here && el('i', {}, here),
    came > 0 && el('em', {}, ` ${plural(came, 'turn')}`), c === 0 && part && el('em', {}, ' · they part here'),
    c === 0 && lost > 0 && el('em', {}, ` · ${lost} lost for good`));
}

/** Leaves that are left out.
 * @param {Scene} scene @param {number} from @param {number} to */
function gap({ g, order }, from, to) {
  const within = (F) => F.turns > 0 ? Math.max(0, Math.min(F.fp.leaf, to) - Math.max(F.cp.leaf, from - 1)) : 0;
  const turns = order.map((L) => L.floats.reduce((sum, F) => sum + within(F), 0));
  return el('section', { class: 'gap' }, el('p', {}, `${leafWord(g)}s ${from} to ${to} are left out`),
    order.map((L, k) => el('p', { class: 'soft' }, `${L.name}: ${plural(turns[k], 'turn')}`)));
}
