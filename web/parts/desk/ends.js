// Every end that a page could have, alone or together with the next page's, marked by the engine before one is tried.
import { sameEnd } from '../../galley/list.js';
import { closesLeaf, citedBy, couldBePage, heights, mayEnd } from '../../galley/page.js';

/**
 * @typedef {import('./bench.js').Bench} Bench
 * @typedef {{i: number, j: number, d: number, t: number, w: number, change: number, second: number[] | null}} Candidate
 *   an accepted end; second: that of the next page, where both are moved
 * @typedef {{i: number, number: number, place: number}} Asked  an end with its answer, 0 where it is accepted
 * @typedef {{j: number, d: number, ends: Asked[], accepted: Candidate[]}} Row  of equal floats
 * @typedef {object} Scan
 * @property {Map<string, Row>} rows @property {number} asked @property {Candidate | null} best
 * @property {Map<number, Candidate[]>} byLine @property {Map<number, number>} refused how often by which rule
 * @typedef {{accepted: Candidate[], asked: number, best: Candidate | null, byLine: Map<number, Candidate[]>}} Pairs
 */

/** More ends than this are first weighed by height. */
const MOST_ASKED = 8000;
/** No more pairs than this are marked: it takes some 0.1 s. */
const MOST_PAIRS = 6000;

/** @param {Candidate} a @param {Candidate | null} b */
const better = (a, b) => !b || a.t < b.t || (a.t === b.t && a.w < b.w);

/** The one that is before all others.
 * @param {Candidate[]} ends @param {(one: Candidate, best: Candidate | null) => boolean} before */
function chosen(ends, before) {
  let best = /** @type {Candidate | null} */ (null);
  for (const one of ends) if (before(one, best)) best = one;
  return best;
}

/** @param {Map<number, Candidate[]>} byLine @param {Candidate} one */
function putLine(byLine, one) {
  const had = byLine.get(one.i);
  if (had) had.push(one); else byLine.set(one.i, [one]);
}

/** The ends between two, line by line.
 * @param {number[]} a @param {number[]} c */
function* between(a, c) {
  for (let d = a[2]; d <= c[2]; d++) for (let j = a[1]; j <= c[1]; j++) for (let i = a[0]; i <= c[0]; i++) yield [i, j, d];
}

/** Every end of page q, in rows of equal floats.
 * @param {Bench} bench @param {number} q @returns {Scan} */
export function scan(bench, q) {
  const { g } = bench, { a, c } = bench.bounds(q), ends = [];
  const many = (c[0] - a[0] + 1) * (c[1] - a[1] + 1) * (c[2] - a[2] + 1) > MOST_ASKED;
  for (const end of between(a, c)) {
    if (sameEnd(end, a) || sameEnd(end, c)) continue;              // one of the two pages would be empty
    if (many && (heights(g, a, end)[0] > g.htMax || heights(g, end, c)[0] > g.htMax)) continue;
    ends.push(end);
  }
  /** @type {Scan} */ const out = { rows: new Map(), asked: ends.length, best: null, byLine: new Map(), refused: new Map() };
  const words = g.width === 3 ? ends : ends.map((end) => end.slice(0, 2));
  bench.engine.markEnds(g.bytes, bench.words, g.width, q, words, (k, number, place, t, w) => {
    const [i, j, d] = ends[k], key = `${j} ${d}`;
    if (!out.rows.has(key)) out.rows.set(key, { j, d, ends: [], accepted: [] });
    out.rows.get(key).ends.push({ i, number, place });
    if (number) {
      out.refused.set(number, (out.refused.get(number) ?? 0) + 1);
      return;
    }
    const one = { i, j, d, t, w, change: t - bench.mark.t, second: null };
    out.rows.get(key).accepted.push(one);
    putLine(out.byLine, one);
    if (better(one, out.best)) out.best = one;
  });
  return out;
}

/**
 * Every end of page q with every end of the next page that could go with it.
 * @param {Bench} bench @param {number} q @returns {Pairs}
 */
export function pairs(bench, q) {
  const { g } = bench, a = bench.bounds(q).a, c = bench.ends[q + 1], last = q + 2 === bench.p, ends = /** @type {number[][]} */ ([]);
  const closes = (f) => last ? heights(g, f, c)[0] <= g.htMax && !sameEnd(f, c) : couldBePage(g, q + 2, f, c);
  if (c) {
    for (const end of between(a, c)) {
      if (ends.length >= MOST_PAIRS) break;
      if (!couldBePage(g, q, a, end)) continue;
      for (const f of between(end, c)) if (couldBePage(g, q + 1, end, f) && closes(f)) ends.push([...end, ...f]);
    }
  }
  /** @type {Pairs} */ const out = { accepted: [], asked: ends.length, best: null, byLine: new Map() };
  const words = ends.map((e) => g.width === 3 ? e : [e[0], e[1], e[3], e[4]]);
  bench.engine.markEnds(g.bytes, bench.words, g.width, q, words, (k, number, place, t, w) => {
    if (number) return;
    const [i, j, d, ...second] = ends[k], one = { i, j, d, t, w, change: t - bench.mark.t, second };
    out.accepted.push(one);
    putLine(out.byLine, one);
    if (better(one, out.best)) out.best = one;
  });
  out.accepted.sort((x, y) => x.t - y.t || x.w - y.w);
  return out;
}

/**
 * The accepted end of a row of floats that has the fewest turns, then the least white space, then is nearest.
 * @param {Row | undefined} row @param {number} near
 */
export function fitRow(row, near) {
  const far = (one) => Math.abs(one.i - near);
  const fitter = (one, best) => better(one, best) || (one.t === best.t && one.w === best.w && far(one) < far(best));
  return chosen(row?.accepted ?? [], fitter);
}

/**
 * Of the accepted ends after line i the one with the fewest turns, then with floats nearest to those of `near`.
 * @param {Candidate[]} ends @param {number[]} near
 */
export function fitLine(ends, near) {
  const far = (one) => Math.abs(one.j - near[1]) + Math.abs(one.d - near[2]);
  const nearer = (one, best) => far(one) < far(best) || (far(one) === far(best) && one.w < best.w);
  return chosen(ends, (one, best) => !best || one.t < best.t || (one.t === best.t && nearer(one, best)));
}

/**
 * The count of a stream with one float fewer or more on the page, past those that are kept together; null where there is none.
 * @param {Bench} bench @param {number} q @param {number[]} end @param {number} s @param {number} step
 */
export function shifted(bench, q, end, s, step) {
  const { a, c } = bench.bounds(q);
  let count = end[s] + step;
  while (count > a[s] && count < c[s] && !bench.g.streams[s][count - 1].end) count += step;
  return count < a[s] || count > c[s] ? null : count;
}

/**
 * Ends of page q that could be printed as they are, whatever comes after: nearest to the end in force first.
 * @param {Bench} bench @param {number} q @param {number} most @returns {number[][]}
 */
export function openings(bench, q, most) {
  const { g } = bench, { a } = bench.bounds(q), force = bench.ends[q - 1], [m, n, k] = g.count, out = [];
  const low = (end) => heights(g, a, end)[0] <= g.htMax;
  for (let d = a[2]; d <= k && low([a[0], a[1], d]); d++) {
    for (let j = a[1]; j <= n && low([a[0], j, d]); j++) {
      if (!mayEnd(g, 1, j)) continue;
      for (let i = a[0]; i <= m && low([i, j, d]); i++) {
        const end = [i, j, d], [, loose] = heights(g, a, end);
        if (loose < g.htMin || !mayEnd(g, 0, i) || sameEnd(end, a) || sameEnd(end, g.count)) continue;
        if (!closesLeaf(g, q) || citedBy(g, end)) out.push(end);
      }
    }
  }
  const far = (end) => Math.abs(end[1] - force[1]) * 30 + Math.abs(end[2] - force[2]) * 30 + Math.abs(end[0] - force[0]);
  return out.sort((x, y) => far(x) - far(y)).slice(0, most);
}
