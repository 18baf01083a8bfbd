// The panels of the desk: accepted ends, ends of two pages together, ends after which the rest is made best, layouts.
import { tone } from '../../draw/handle.js';
import { sameEnd } from '../../galley/list.js';
import { comma, floatRange, plural, signed } from '../../galley/words.js';
import { el } from '../dom.js';

/**
 * @typedef {import('./bench.js').Bench} Bench
 * @typedef {import('./ends.js').Candidate} Candidate
 * @typedef {import('./ends.js').Row} Row
 * @typedef {(one: Candidate) => void} Pick
 */

const MOST_PAIRS_SHOWN = 40, MOST_RESTS_SHOWN = 12;

/** The figures and tables between two ends.
 * @param {number[]} from @param {number[]} to */
const floatsBetween = (from, to) => [1, 2].map((s) => floatRange(s, from[s], to[s])).filter(Boolean).join(' ');

/** @param {string} words */
const none = (words) => el('i', { class: 'none' }, words);

/** @param {string} title @param {string} told */
const heading = (title, told) => el('h3', {}, `${title} `, el('small', {}, told));

/**
 * One accepted end.
 * @param {Bench} bench @param {number} q @param {Candidate} one @param {number[] | null} star @param {Pick} pick
 */
function chip(bench, q, one, star, pick) {
  const { trial } = bench, end = [one.i, one.j, one.d], force = bench.ends[q - 1];
  const now = trial?.end ?? force, next = trial?.second ?? bench.ends[q];
  const was = sameEnd(end, force) && !one.second, on = sameEnd(end, now) && (!one.second || sameEnd(one.second, next));
  const told = was ? 'in force' : signed(one.change), floats = floatsBetween(bench.bounds(q).a, end);
  const label = [`end after line ${one.i}`, one.second && `the next page after line ${one.second[0]}`,
    was ? 'in force' : `${told} turns`, floats && `with ${floats} on page ${q}`];
  const attributes = {
    type: 'button', tabindex: -1, class: `chip ${was ? 'same was' : tone(one.change)}${on ? ' on' : ''}`,
    'data-end': [...end, ...(one.second ?? [])].join(' '), title: `T ${one.t}, W ${comma(one.w)}`,
    'aria-label': label.filter(Boolean).join(', '), onclick: () => pick(one),
  };
  return el('button', attributes, one.second ? `${one.i} + ${one.second[0]}` : one.i, one.second && floats && el('u', {}, floats),
    el('i', {}, told), star && sameEnd(end, star) && el('i', { class: 'star', title: 'as in the best list' }, '★'));
}

/** Which floats a row has on the page, and which on the next one.
 * @param {Bench} bench @param {number} q @param {Row} row */
function placing(bench, q, row) {
  const { a, c } = bench.bounds(q), end = [0, row.j, row.d], here = floatsBetween(a, end), next = floatsBetween(end, c);
  if (!here && !next) return 'after line';
  return [here && [el('b', {}, here), ` on ${q}`], here && next && ', ', next && [el('b', {}, next), ` on ${q + 1}`]];
}

/**
 * All accepted ends of a page, a row for each placing of floats.
 * @param {Bench} bench @param {number} q @param {number[] | null} star @param {Pick} pick
 */
export function endsPanel(bench, q, star, pick) {
  const found = bench.scan(q), force = bench.ends[q - 1], now = bench.trial?.end ?? force;
  const on = (row) => row.j === now[1] && row.d === now[2], gain = (row) => Math.min(0, ...row.accepted.map((one) => one.change));
  const far = (row) => Math.abs(row.j - force[1]) + Math.abs(row.d - force[2]);
  const rows = [...found.rows.values()].filter((row) => row.accepted.length || on(row))
    .sort((x, y) => gain(x) - gain(y) || far(x) - far(y) || x.j - y.j || x.d - y.d);
  const total = rows.reduce((sum, row) => sum + row.accepted.length, 0);
  const why = [...found.refused].sort((x, y) => y[1] - x[1]).map(([rule, count]) => `${comma(count)} by rule ${rule}`).join(', ');
  const all = (row) => row.accepted.map((one) => chip(bench, q, one, star, pick));
  const chips = (row) => row.accepted.length ? all(row) : none('no line end is accepted so');
  return [
    heading(`Ends of page ${q}`, `${plural(total, 'end')} accepted of ${comma(found.asked)} asked${why ? `; refused: ${why}` : ''}`),
    rows.map((row) => el('div', { class: `row${on(row) ? ' on' : ''}` },
      el('span', { class: 'lab' }, placing(bench, q, row)), el('span', { class: 'chips' }, chips(row)))),
  ];
}

/**
 * Ends of a page and of the next one together.
 * @param {Bench} bench @param {number} q @param {number[] | null} star @param {Pick} pick
 */
export function pairsPanel(bench, q, star, pick) {
  const { accepted, asked } = bench.pairs(q), shown = accepted.slice(0, MOST_PAIRS_SHOWN);
  const some = accepted.length > shown.length ? `; the best ${shown.length}` : '';
  return [
    heading(`Ends of pages ${q} and ${q + 1} together`, `${plural(accepted.length, 'pair')} accepted of ${comma(asked)} asked${some}`),
    el('div', { class: 'row' }, el('span', { class: 'chips' },
      shown.length ? shown.map((one) => chip(bench, q, one, star, pick)) : none('no two ends are accepted together'))),
  ];
}

/**
 * Ends of the page after which the rest is made best.
 * @param {Bench} bench @param {number} q @param {{end: number[], made: any}[]} rests @param {boolean} busy
 * @param {number} slow ms of making, where that is long @param {(end: number[]) => void} pick
 */
export function restPanel(bench, q, rests, busy, slow, pick) {
  const force = bench.ends[q - 1], near = (one) => Math.abs(one.end[0] - force[0]);
  const list = [...rests].sort((x, y) => x.made.t - y.made.t || x.made.w - y.made.w || near(x) - near(y));
  const some = list.length > MOST_RESTS_SHOWN ? `the best ${MOST_RESTS_SHOWN} of ${list.length}` : '';
  const long = slow > 1 ? `takes ${(slow / 1000).toFixed(1)} s` : 'is slow';
  const why = slow ? `Making ${long} here: R makes the best from the end that is tried` : 'no list begins with such a page';
  return [
    heading('… and all pages after it made best', busy ? 'being made…' : some),
    el('div', { class: 'row' }, el('span', { class: 'chips' },
      list.length ? list.slice(0, MOST_RESTS_SHOWN).map((one) => restChip(bench, q, one, pick)) : !busy && none(why))),
  ];
}

/** @param {Bench} bench @param {number} q @param {{end: number[], made: any}} one @param {(end: number[]) => void} pick */
function restChip(bench, q, { end, made }, pick) {
  const change = made.t - bench.mark.t, floats = floatsBetween(bench.bounds(q).a, end), now = bench.trial?.end ?? bench.ends[q - 1];
  const attributes = {
    type: 'button', class: `chip rest ${tone(change)}${sameEnd(end, now) ? ' on' : ''}`, 'data-rest': end.join(' '),
    title: `p ${made.p}, X ${made.x}, Y ${made.y}, T ${made.t}, W ${comma(made.w)}`, onclick: () => pick(end),
    'aria-label': `end page ${q} after line ${end[0]}${floats && ` with ${floats}`} and make the rest best: ${signed(change)} turns`,
  };
  return el('button', attributes, end[0] || '–', floats && el('u', {}, floats), el('i', {}, signed(change)));
}

/** Layouts to come back to.
 * @param {Bench} bench @param {(name: string) => void} back @param {(name: string) => void} drop */
export function layoutsPanel(bench, back, drop) {
  const all = bench.layouts();
  if (!all.length) return el('p', { class: 'sub' }, 'None yet.');
  return all.map(({ name, words }, k) => {
    const mark = bench.engine.mark(bench.g.bytes, words), change = mark.ok ? mark.t - bench.mark.t : 0;
    return el('div', { class: 'lay ui' }, el('span', { class: 'nm' }, name),
      el('span', { class: 'soft' }, mark.ok ? `p ${mark.p} T ${mark.t}` : ''),
      el('span', { class: change > 0 ? 'loud' : change < 0 ? 'fine' : 'soft' }, signed(change)),
      el('button', { type: 'button', 'data-back': k, 'aria-label': `back to ${name}`, onclick: () => back(name) }, 'Back'),
      el('button', { type: 'button', 'data-drop': k, 'aria-label': `drop ${name}`, onclick: () => drop(name) }, '✕'));
  });
}
