// Pages to look at: lists above the best one, where they part, what is lost for good, what costs turns, all spreads.
import { brokenLength, partingWords } from '../../galley/explain.js';
import { parting } from '../../galley/list.js';
import { leafOf } from '../../galley/page.js';
import { plural, specification } from '../../galley/words.js';
import { byId, el, link, put } from '../dom.js';
import { ledger } from './ledger.js';
import { lostBox } from './lost.js';
import { overviewOf } from './overview.js';
import { galleyRefused, makingBox, noPagination } from './states.js';
import { reelOf } from './reel.js';
import { summary } from './summary.js';

/**
 * @typedef {import('../app.js').App} App
 * @typedef {import('../../galley/measure.js').Measured} Measured
 * @typedef {object} Scene  what is drawn
 * @property {import('../../galley/galley.js').Galley} g @property {Measured[]} hand the lists handed in @property {Measured | null} best
 * @property {Measured[]} order all of them, the best last @property {number} lo @property {number} hi the first leaf and the last
 * @property {number} part the leaf on which the first list parts from the best, or 0 @property {number[]} leaves that are drawn
 */

const MOST_LEAVES = 400;

/** @param {App} app */
export function showView(app) {
  const root = byId('view-show');
  if (app.refused) return put(root, galleyRefused(app));
  if (!app.g) return put(root, el('p', { class: 'verdict' }, 'Open a galley first.'));
  const { g } = app, shown = app.comparable().filter((list) => app.chosen.has(list.name));
  const hand = shown.filter((list) => list.ends.length).map((list) => app.measured(list));
  const best = app.bestMeasured(), order = best ? [...hand, best] : hand, unread = shown.filter((list) => !list.ends.length);
  const parts = [chooser(app), makingBox(app), noPagination(app), unread.map((list) => listRefused(g, list))];
  if (!order.length) return put(root, parts);
  const scene = sceneOf(g, hand, best, order);
  put(root, parts, summary(app, scene), partings(scene), lostBox(app, scene), overviewOf(app, scene),
    el('h2', {}, 'What costs turns'), ledger(app, scene), reelOf(app, scene), order.map((L) => neverPlaced(app, L)), footnote(g));
}

/** @param {any} g @param {Measured[]} hand @param {Measured | null} best @param {Measured[]} order @returns {Scene} */
function sceneOf(g, hand, best, order) {
  const lo = Math.min(...order.map((L) => L.leaf0)), hi = Math.max(...order.map((L) => L.leaf1));
  const q = best && hand.length ? parting(hand[0].ends, best.ends) : 0, part = q ? leafOf(g, q) : 0;
  return { g, hand, best, order, lo, hi, part, leaves: leavesOf(order, lo, hi, part) };
}

/**
 * Leaves to draw; of very many those with something to tell.
 * @param {Measured[]} order @param {number} lo @param {number} hi @param {number} part
 */
function leavesOf(order, lo, hi, part) {
  const all = Array.from({ length: hi - lo + 1 }, (_, k) => lo + k);
  if (all.length <= MOST_LEAVES) return all;
  const keep = new Set([lo, hi]);
  const add = (i) => {
    for (const k of [i, i - 1, i + 1]) if (k >= lo && k <= hi && keep.size < MOST_LEAVES) keep.add(k);
  };
  if (part) add(part);
  for (const L of order) for (const page of L.pages) if (page.bad.length) add(page.leaf);
  for (const L of order) for (const F of L.floats) if (F.turns) for (const page of [F.cp, F.fp]) add(page.leaf);
  for (const i of all) if (keep.size < MOST_LEAVES) keep.add(i);
  return [...keep].sort((a, b) => a - b);
}

/** Which lists stand above the best.
 * @param {App} app */
function chooser(app) {
  const all = app.comparable();
  if (!all.length) return null;
  return el('p', { class: 'ui sub choose noprint' }, 'Above the best: ', all.map((list) => el('label', {},
    el('input', { type: 'checkbox', 'data-choose': list.name, checked: app.chosen.has(list.name),
      onchange: (event) => app.choose(list.name, event.target.checked) }), ' ', list.name, ' ')));
}

/** A list whose form is refused. */
function listRefused(g, list) {
  const why = list.mark.why ?? `${brokenLength(g, list.words.length)}.`;
  return el('div', { class: 'state' }, el('p', {}, el('b', {}, list.name), ' is refused, R 12 0: ', why));
}

/** Where each list parts from the best.
 * @param {Scene} scene */
function partings({ g, hand, best }) {
  if (!best || !hand.length) return null;
  if (hand.length === 1) return el('p', { class: 'verdict' }, partingWords(g, hand[0], best));
  return hand.map((L) => el('p', { class: 'sub' }, el('b', {}, L.name), ': ', partingWords(g, L, best)));
}

/** What a list never places; and, where that is all that is wrong, the rest of the pages.
 * @param {App} app @param {Measured} L */
function neverPlaced(app, L) {
  if (!L.rest) return null;
  const left = (one, s) => app.g.count[s] > L.rest[s] ? plural(app.g.count[s] - L.rest[s], one) : '';
  const what = ['line', 'figure', 'table'].map(left).filter(Boolean).join(', ');
  const whole = L.pages.every((page) => page.bad.every(({ rule }) => rule === 18));
  const make = link('Take its pages as printed, and make the rest after them', () => app.makeAfterList(L.name, L.ends));
  return el('div', { class: 'state card' }, el('p', {}, el('b', {}, 'Never placed'), ` by ${L.name} (18): ${what}.`),
    whole && el('p', {}, make));
}

/** @param {any} g */
const footnote = (g) => el('p', { class: 'sub' }, `${specification(g)}. Heights are to scale, widths are not known to a galley. `,
  'X is the number of dots, Y the number of leaves turned from the first page to the last.');
