// The class report: all lists of a galley by turns, where each loses them, and where the class does. The sums are the engine's.
import { bar, dotPlot, dotScale, staircase } from '../draw/plots.js';
import { brokenLength } from '../galley/explain.js';
import { parting } from '../galley/list.js';
import { turnsByLeaf } from '../galley/measure.js';
import { leafOf } from '../galley/page.js';
import { comma, length, plural, series } from '../galley/words.js';
import { button, byId, download, drawn, el, link, put } from './dom.js';

/**
 * @typedef {import('./app.js').App} App
 * @typedef {import('../galley/measure.js').Measured} Measured
 * @typedef {{name: string, mark: any, words: Uint32Array, L: Measured | null, more: number | null, part: number, why: string}} Row
 */

const MOST_FLOATS = 15;

/** @param {App} app */
export function classView(app) {
  const root = byId('view-class'), { g, lists } = app;
  if (!g) return put(root, el('p', { class: 'verdict' }, 'Open a galley first.'));
  if (!lists.length) return put(root, el('p', { class: 'verdict' }, 'No lists were handed in. Drop them here, all at once.'));
  const best = app.bestMeasured(), rows = rowsOf(app, best), most = Math.max(1, ...rows.map((row) => row.more ?? 0));
  put(root, figures(app, rows, best),
    el('h2', {}, 'Lists ', el('small', {}, 'by turns, then white space; the refused ones last. Each leads to its pages'),
      el('span', { class: 'tools noprint' },
        button('Rows as CSV', () => download(`${app.plainName()}-class.csv`, csv(rows)), { id: 'csv' }),
        button('Print', () => print()))),
    el('table', { class: 'rep' }, head(most),
      el('tbody', {}, best && engineRow(best, most), rows.map((row) => rowOf(app, row, best, most)))),
    best && whereLost(g, rows, best));
}

/**
 * Accepted lists by T, W and name, then refused ones by rule and page.
 * @param {App} app @param {Measured | null} best @returns {Row[]}
 */
function rowsOf(app, best) {
  const rows = app.lists.map((list) => {
    const L = list.ends.length ? app.measured(list) : null, { mark } = list;
    const more = best && mark.ok ? mark.t - best.T : null, part = best && L ? parting(L.ends, best.ends) : 0;
    const row = { name: list.name, mark, words: list.words, L, more, part, why: '' };
    return { ...row, why: mark.ok ? whyMore(app.g, row, best) : whyRefused(app.g, row) };
  });
  const name = (a, b) => a.name < b.name ? -1 : 1;
  const accepted = rows.filter((row) => row.mark.ok).sort((a, b) => a.mark.t - b.mark.t || a.mark.w - b.mark.w || name(a, b));
  const refused = rows.filter((row) => !row.mark.ok)
    .sort((a, b) => Number(!!a.mark.unread) - Number(!!b.mark.unread) || a.mark.number - b.mark.number || a.mark.place - b.mark.place || name(a, b));
  return [...accepted, ...refused];
}

/** @param {any} g @param {Row} row @param {Measured | null} best */
function whyMore(g, { L, mark, more, part }, best) {
  if (!best) return '';
  if (!part) return 'page for page the engine’s';
  if (!more) return mark.w > best.W ? `as few turns, ${length(g, mark.w - best.W)} more white space` : 'as good as the engine’s';
  const late = L.floats.filter((F, k) => F.turns > best.floats[k].turns).map((F) => F.id), parts = [];
  if (late.length) parts.push(`later than the engine’s: ${series(late, 6)}`);
  if (L.Y > best.Y) parts.push(`${plural(L.Y - best.Y, 'turn')} more to leaf through`);
  return parts.join('; ');
}

/** @param {any} g @param {Row} row */
function whyRefused(g, { L, mark, words }) {
  if (mark.unread) return `it cannot be read. ${mark.why}`;
  if (mark.number === 12) return `R 12: ${mark.why ?? brokenLength(g, words.length)}`;
  const fault = L?.pages[mark.place - 1]?.bad[0];
  return `rule ${mark.number} on page ${mark.place}${fault ? `: ${fault.numbers.join('; ')}` : ''}`;
}

/** @param {App} app @param {Row[]} rows @param {Measured | null} best */
function figures(app, rows, best) {
  const accepted = rows.filter((row) => row.mark.ok), unread = rows.filter((row) => row.mark.unread).length;
  const refused = rows.length - accepted.length - unread;
  const counts = [[rows.length, 'lists'], [accepted.length, 'accepted'], [refused, 'refused', refused ? 'bad' : '']];
  if (unread) counts.push([unread, 'unreadable', 'bad']);
  const told = counts.map(([count, what, cls]) => el('li', {}, el('b', { class: cls || null }, count), ` ${what}`));
  const sums = best && accepted.length ? app.engine.report(accepted.map((row) => ({ ...row.mark, engine: best.T }))) : null;
  if (sums?.ok) {
    const same = accepted.filter((row) => row.more === 0).length, mean = (Number(sums.excess) / Number(sums.count)).toFixed(2);
    told.push(el('li', {}, el('b', {}, same), ' with as few turns as the engine'),
      el('li', {}, 'mean excess ', el('b', {}, `${sums.excess}/${sums.count}`), ` = ${mean} turns`),
      el('li', {}, 'T from ', el('b', {}, String(sums.least)), ' to ', el('b', {}, String(sums.greatest))));
  }
  return el('ul', { class: 'figs num' }, told);
}

/** @param {number} most */
function head(most) {
  const column = (words, cls = 'r') => el('th', { class: cls || null, scope: 'col' }, words);
  return el('thead', {}, el('tr', {}, column('list', ''), ['p', 'X', 'Y', 'T', 'W', 'more'].map((k) => column(k)),
    el('th', { scope: 'col' }, el('span', { class: 'vh' }, 'turns more'), drawn(dotScale(most))),
    column('as the pages go by', ''), column('parts at page'), column('why', '')));
}

/** @param {Measured} best @param {number} most */
function engineRow(best, most) {
  return el('tr', { class: 'eng' }, el('th', { scope: 'row' }, 'the engine'),
    numbers([best.p, best.X, best.Y, best.T, best.W]), el('td'),
    el('td', { class: 'dp' }, drawn(dotPlot(0, most))), el('td', { class: 'sp' }), el('td'),
    el('td', { class: 'why soft' }, 'no list has fewer turns'));
}

/** @param {number[]} values */
const numbers = (values) => values.map((v, k) =>
  el('td', { class: 'r', 'data-t': 'pXYTW'[k] }, k === 3 ? el('b', {}, comma(v)) : comma(v)));

/** @param {App} app @param {Row} row @param {Measured | null} best @param {number} most */
function rowOf(app, row, best, most) {
  const { mark, L, more, part } = row, name = link(row.name, () => app.showOnly(row.name), { 'data-show': row.name });
  const told = el('td', { class: `r ${more ? 'loud' : 'soft'}`, 'data-t': 'more' }, more === null ? '' : more ? `+${more}` : '0');
  const cells = mark.ok ? [numbers([mark.p, mark.x, mark.y, mark.t, mark.w]), told]
    : [el('td', { class: 'r', 'data-t': 'p' }, L ? L.p : '–'), el('td', { colspan: 5, class: 'bad' }, mark.unread ? 'unreadable' : 'refused')];
  return el('tr', {}, el('th', { scope: 'row' }, name), cells, el('td', { class: 'dp' }, drawn(dotPlot(more, most))),
    el('td', { class: 'sp' }, best && L ? drawn(spark(app.g, L, mark, best, most)) : ''),
    el('td', { class: 'r', 'data-t': 'parts at page' }, part || ''), el('td', { class: mark.ok ? 'why soft' : 'why bad' }, row.why));
}

/** @param {any} g @param {Measured} L @param {any} mark @param {Measured} best @param {number} most */
function spark(g, L, mark, best, most) {
  const to = Math.max(L.leaf1, best.leaf1), other = turnsByLeaf(g, best, to);
  const cross = mark.ok ? null : mark.place ? leafOf(g, mark.place) - best.leaf0 : 0;
  return staircase(turnsByLeaf(g, L, to).map((turns, k) => turns - other[k]), most, cross);
}

/** Floats by the turns that the class loses with them.
 * @param {any} g @param {Row[]} rows @param {Measured} best */
function whereLost(g, rows, best) {
  const accepted = rows.filter((row) => row.mark.ok);
  const lost = best.floats.map((F, k) => {
    const more = accepted.map((row) => row.L.floats[k].turns - F.turns).filter((turns) => turns > 0);
    return { F, lists: more.length, turns: more.reduce((a, b) => a + b, 0) };
  }).filter((one) => one.turns).sort((a, b) => b.turns - a.turns);
  const title = el('h2', {}, 'Where the class loses ',
    el('small', {}, `floats that stand later than in the engine’s list, over ${plural(accepted.length, 'accepted list')}`));
  if (!lost.length) return [title, el('p', { class: 'sub' }, 'No float stands later than in the engine’s list.')];
  const heads = ['height', 'cited by line', 'lists', 'turns'].map((words) => el('th', { class: 'r', scope: 'col' }, words));
  return [title, el('table', { class: 'led' }, el('thead', {}, el('tr', {}, el('th', { scope: 'col' }, 'float'), heads, el('th'))),
    el('tbody', {}, lost.slice(0, MOST_FLOATS).map(({ F, lists, turns }) => el('tr', {}, el('th', { scope: 'row' }, F.id),
      el('td', { class: 'r', 'data-t': 'height' }, length(g, F.h)), el('td', { class: 'r', 'data-t': 'cited by line' }, F.cite),
      el('td', { class: 'r', 'data-t': 'lists' }, lists),
      el('td', { class: 'r', 'data-t': 'turns' }, el('b', {}, turns)), el('td', {}, drawn(bar(turns / lost[0].turns))))))),
  lost.length > MOST_FLOATS && el('p', { class: 'sub' }, `and ${lost.length - MOST_FLOATS} more`)];
}

/** The rows for a spreadsheet. A field that could be taken for a formula is quoted with a blank before it.
 * @param {Row[]} rows */
export function csv(rows) {
  const field = (x) => {
    const text = String(x ?? ''), safe = /^[=+\-@\t\r]/.test(text) && !/^-?\d+$/.test(text) ? ` ${text}` : text;
    return /[",\n\r]/.test(safe) ? `"${safe.replace(/"/g, '""')}"` : safe;
  };
  const line = (row) => {
    const { mark } = row, refused = [row.L?.p, '', '', '', '', '', mark.unread ? '?' : mark.number, mark.unread ? '' : mark.place];
    const told = mark.ok ? [mark.p, mark.x, mark.y, mark.t, mark.w, row.more, '', ''] : refused;
    return [row.name, ...told, row.part || '', row.why].map(field).join(',');
  };
  return `${['list,p,X,Y,T,W,more,refusal,place,parts at page,why', ...rows.map(line)].join('\r\n')}\r\n`;
}
