// What explains a list: every rule that every page breaks, with the numbers; why a float waits; where two lists part; what is
// lost for good. It only words what the marking answers. tests/explanations/cases.json holds it and the command to the same words.
import { parting } from './list.js';
import { heights } from './page.js';
import { endWords, leafWord, length, plural } from './words.js';

/**
 * @typedef {import('./galley.js').Galley} Galley
 * @typedef {import('./page.js').Page} Page
 * @typedef {import('./measure.js').Measured} Measured
 * @typedef {import('./measure.js').Float} Float
 * @typedef {{page: number, rule: number, numbers: string[], short: string}} Broken  short: for a drawing
 * @typedef {{page: number, line: number, turns: number, floats: string[], leaves: number, words: string}} Lost
 */

const KINDS = ['line', 'figure', 'table'];

/** A count as the command writes it.
 * @param {number} n @param {string} what */
const counted = (n, what) => `${n} ${what}${n === 1 ? '' : 's'}`;

/**
 * Every rule that a page breaks.
 * @param {Galley} g @param {Page} page @param {number[]} end as the list has it @returns {Broken[]}
 */
export function broken(g, page, end) {
  const { q, a } = page, out = /** @type {Broken[]} */ ([]);
  const add = (rule, numbers, short) => out.push({ page: q, rule, numbers, short });
  const order = outOfOrder(g, a, end);
  if (order.length) add(13, order.map((f) => f.numbers), order[0].short);
  else {
    const forbidden = forbiddenEnd(g, end), soon = g.sides === 1 || page.folio % 2 === 1 || page.last ? tooSoon(g, end) : [];
    if (forbidden.length) add(14, forbidden.map((f) => f.numbers), forbidden[0].short);
    if (page.t > g.htMax) {
      const by = page.t - g.htMax;
      add(15, [`${page.t} is above htMax ${g.htMax} by ${by}`], `${length(g, by)} over htMax`);
    }
    if (page.l < page.least) {
      const name = page.last ? 'lastMin' : 'htMin', by = page.least - page.l;
      add(16, [`${page.l} is below ${name} ${page.least} by ${by}`], `${length(g, by)} under ${name}`);
    }
    if (soon.length) add(17, soon.map((f) => f.numbers), soon[0].short);
  }
  if (page.last && page.b.some((x, s) => x < g.count[s])) add(18, [unfinished(g, end)], 'not everything is placed');
  return out;
}

/** How a page goes backwards, past what there is, or nowhere.
 * @param {Galley} g @param {number[]} a @param {number[]} end */
function outOfOrder(g, a, end) {
  const out = [];
  end.forEach((y, s) => {
    const kind = `${KINDS[s]}s`;
    if (y < a[s]) out.push({ numbers: `${kind} placed so far fall from ${a[s]} to ${y}`, short: 'goes backwards' });
    else if (y > g.count[s]) out.push({ numbers: `it claims ${y} ${kind}, but the galley has ${g.count[s]}`, short: 'goes past the galley' });
  });
  if (end.every((y, s) => y === a[s])) {
    const counts = end.slice(0, g.width).map((y, s) => counted(y, KINDS[s]));
    out.push({ numbers: `it ends where it starts, after ${joined(counts)}`, short: 'is empty' });
  }
  return out;
}

/** @param {Galley} g @param {number[]} end */
function forbiddenEnd(g, [i, j]) {
  const out = [];
  if (i > 0 && i < g.count[0] && !g.streams[0][i - 1].end) {
    out.push({ numbers: `line ${i} forbids a page end in the space after it`, short: `may not end after line ${i}` });
  }
  if (j > 0 && j < g.count[1] && !g.streams[1][j - 1].end) {
    out.push({ numbers: `figure ${j} is kept with figure ${j + 1}`, short: `parts F${j} from F${j + 1}` });
  }
  return out;
}

/** @param {Galley} g @param {number[]} end */
function tooSoon(g, end) {
  const out = [];
  for (const s of [1, 2]) {
    const cite = end[s] > 0 ? g.streams[s][end[s] - 1].cite : 0;
    if (cite <= end[0]) continue;
    out.push({ numbers: `${KINDS[s]} ${end[s]} is cited by line ${cite}, and the spread ends after line ${end[0]}`,
      short: `${' FT'[s]}${end[s]} stands before line ${cite}` });
  }
  return out;
}

/** @param {Galley} g @param {number[]} end */
function unfinished(g, end) {
  const [at, whole] = [end, g.count].map((counts) => counts.slice(0, g.width).join(' '));
  return `the list ends at ${at}, and everything is placed at ${whole}`;
}

/** A list whose length alone is refused.
 * @param {Galley} g @param {number} words */
export function brokenLength(g, words) {
  const most = g.width * g.count.reduce((a, b) => a + b, 0), asked = g.width === 2 ? 'an even number' : 'a multiple of three';
  return `it has ${counted(words, 'word')}; ${g.width} to ${most} and ${asked} are asked`;
}

/** F2 to F4, T1 and T2: floats in their order, three and more that follow each other as a range.
 * @param {string[]} ids */
export function named(ids) {
  const runs = /** @type {string[][]} */ ([]);
  for (const id of ids) {
    const run = runs[runs.length - 1], last = run?.[run.length - 1];
    if (last && last[0] === id[0] && Number(last.slice(1)) + 1 === Number(id.slice(1))) run.push(id); else runs.push([id]);
  }
  return runs.flatMap((run) => run.length > 2 ? [`${run[0]} to ${run[run.length - 1]}`] : run);
}

/** @param {string[]} parts */
const joined = (parts) => parts.length < 2 ? parts.join('') : `${parts.slice(0, -1).join(', ')} and ${parts[parts.length - 1]}`;

/**
 * The turns that are lost for good with the end of page q, by the best lists after q - 1 and after q pages.
 * @param {Galley} g @param {number} q @param {number[]} end @param {Measured} before @param {Measured} after @returns {Lost}
 */
export function lostWith(g, q, end, before, after) {
  const floats = g.alpha ? after.floats.filter((F, k) => F.turns > before.floats[k].turns).map((F) => F.id) : [];
  const leaves = g.beta ? Math.max(0, after.Y - before.Y) : 0, turns = after.T - before.T;
  const what = [...named(floats), ...(leaves ? [leaves === 1 ? 'a leaf more' : `${leaves} leaves more`] : [])];
  const where = end[0] ? `after line ${end[0]}` : 'before any line', told = what.length ? `, ${joined(what)}` : '';
  const words = `page ${q} ends ${where}: ${counted(turns, 'turn')} lost for good${told}`;
  return { page: q, line: end[0], turns, floats, leaves, words };
}

/** @param {Galley} g @param {Float} F */
export function floatWords(g, F) {
  let t = `${F.s === 1 ? 'Figure' : 'Table'} ${F.k}, ${length(g, F.h)} high, cited by line ${F.cite}`;
  if (F.cp) t += ` on page ${F.cp.q}`;
  if (!F.fp) return `${t}, is never placed`;
  t += `, stands on page ${F.fp.q}`;
  return F.turns === null ? t : F.turns === 0 ? `${t}: no turn` : F.turns < 0 ? `${t}: too soon` : `${t}: ${plural(F.turns, 'turn')}`;
}

/** Why a float waits: how near it came on the leaf that cites it.
 * @param {Galley} g @param {Measured} L @param {Float} F */
export function whyWaiting(g, L, F) {
  if (!F.cp || !F.turns || F.turns < 0) return '';
  const pages = L.byLeaf.get(F.cp.leaf).slice().sort((A, B) => Number(B === F.cp) - Number(A === F.cp));
  const tries = pages.map((page) => {
    const b = page.b.slice();
    b[F.s] = Math.max(F.k, b[F.s]);
    return { page, excess: heights(g, page.a, b)[0] - g.htMax, more: F.k - page.b[F.s] };
  });
  const near = tries.reduce((best, one) => one.excess < best.excess ? one : best);
  const c = ' FT'[F.s], several = near.more === 2 ? `${c}${F.k - 1} and ${F.id}` : `${c}${F.k - near.more + 1} to ${F.id}`;
  const them = near.more <= 1 ? 'it' : several;
  return near.excess > 0 ? `with ${them} page ${near.page.q} would be ${length(g, near.excess)} too high`
    : `page ${near.page.q} has room for ${them} as it stands`;
}

/** Where a list parts from the best one.
 * @param {Galley} g @param {Measured} L @param {Measured} best */
export function partingWords(g, L, best) {
  const q = parting(L.ends, best.ends);
  if (!q) return 'It is the best list, page for page.';
  const a = L.ends[q - 1], b = best.ends[q - 1], leaf = (L.pages[q - 1] ?? best.pages[q - 1]).leaf;
  const where = `They part on page ${q}${g.sides === 2 ? `, ${leafWord(g)} ${leaf}` : ''}: `;
  if (!a || !b) return `${where}${a ? 'the best' : L.name} has ended.`;
  return `${where}${L.name} ends it ${endWords(g, a)}, the best ${endWords(g, b)}.`;
}
