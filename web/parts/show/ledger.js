// What costs turns: a row a float that waits in any of the lists. It is the text form of all arcs.
import { whyWaiting } from '../../galley/explain.js';
import { leafWord, length, plural } from '../../galley/words.js';
import { el } from '../dom.js';

/**
 * @typedef {import('../app.js').App} App
 * @typedef {import('./show.js').Scene} Scene
 * @typedef {import('../../galley/measure.js').Float} Float
 */

/** More rows than this are closed at first. */
const MANY = 14;

/** @param {App} app @param {Scene} scene */
export function ledger(app, { g, hand, order }) {
  const rows = order[0].floats.map((F) => order.map((L) => L.byId.get(F.id))).filter((floats) => floats.some((F) => F.turns !== 0));
  if (!rows.length) {
    const any = g.count[1] + g.count[2] > 0;
    const why = any ? `Every figure and table stands on the ${leafWord(g)} of its citation` : 'The galley has no figures or tables';
    return el('p', { class: 'sub' }, `${why}: all turns are leafing.`);
  }
  const told = hand.length === 1 ? hand[0] : order.length === 1 ? order[0] : null, lost = told ? app.lostOf(told) : null;
  const with_ = Array.isArray(lost) ? new Map(lost.flatMap((one) => one.floats.map((id) => [id, one.page]))) : new Map();
  const head = el('tr', {}, el('th', { scope: 'col' }, 'float'), el('th', { class: 'r', scope: 'col' }, 'height'),
    el('th', { class: 'r', scope: 'col' }, 'cited by line'),
    order.map((L) => el('th', { colspan: 2, scope: 'col' }, L.name)), told && el('th', { scope: 'col' }, 'where it is cited'),
    with_.size > 0 && el('th', { scope: 'col' }, 'lost for good'));
  const row = (floats) => el('tr', { 'data-k': floats[0].id },
    el('th', { scope: 'row' }, floats[0].id), el('td', { class: 'r', 'data-t': 'height' }, length(g, floats[0].h)),
    el('td', { class: 'r', 'data-t': 'cited by line' }, floats[0].cite), floats.map((F, k) => cells(F, order[k].name)),
    told && el('td', { class: 'soft' }, whyWaiting(g, told, told.byId.get(floats[0].id))),
    with_.size > 0 && el('td', {}, with_.has(floats[0].id) ? `with the end of page ${with_.get(floats[0].id)}` : ''));
  const table = el('table', { class: 'led' }, el('thead', {}, head), el('tbody', {}, rows.map(row)));
  if (rows.length <= MANY) return table;
  return el('details', {}, el('summary', {}, `${plural(rows.length, 'float')} that cost turns, each with its pages`), table);
}

/** The pages and turns of a float in one list.
 * @param {Float} F @param {string} name */
function cells(F, name) {
  if (F.turns === null) return el('td', { colspan: 2, class: 'bad', 'data-t': name }, 'not placed');
  const turns = F.turns < 0 ? 'too soon' : F.turns ? `${'●'.repeat(Math.min(9, F.turns))} ${F.turns}` : '0';
  return [el('td', { class: 'soft', 'data-t': name }, `page ${F.cp.q} → ${F.fp.q}`),
    el('td', { class: F.turns < 0 ? 'bad' : F.turns ? 'loud' : 'soft' }, turns)];
}
