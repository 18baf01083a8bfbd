// What lies over the two pages of an end: the handle, a tick at each accepted end, buttons on floats, the end in force.
import { sameEnd } from '../galley/list.js';
import { floatRange, signed } from '../galley/words.js';
import { n, setPage } from '../layout/layout.js';
import { circle, path, rect, text, title } from './svg.js';

/**
 * @typedef {import('../galley/galley.js').Galley} Galley
 * @typedef {import('../galley/page.js').Page} Page
 * @typedef {import('../layout/layout.js').Size} Size
 * @typedef {import('../layout/layout.js').Item} Item
 * @typedef {{i: number, j: number, d: number, change: number}} Accepted
 * @typedef {object} State
 * @property {boolean} ok @property {number | null} change @property {boolean} trial
 * @property {boolean} whole another list altogether
 * @property {number[]} force the end in force @property {number[] | null} star the end of that page in the best list
 * @typedef {{page: Page, x: number, lines: Item[], floats: Item[], top: number, bottom: number}} Side
 *   a page, with where its lines begin and end
 */

/** How a change in turns is coloured; each also has its sign in words.
 * @param {number | null} d */
export const tone = (d) => d === null ? 'no' : d < 0 ? 'good' : d > 0 ? 'more' : 'same';

/** @param {Galley} g @param {Page} page @param {Size} Z @param {number} x @returns {Side} */
function sideOf(g, page, Z, x) {
  const { items } = setPage(g, page, Z), lines = items.filter((it) => it.s === 0), figures = items.filter((it) => it.s === 1);
  const lowest = figures[figures.length - 1], last = lines[lines.length - 1];
  const limit = Z.H + Z.over, head = lowest ? lowest.y + lowest.h + 3 : 0;
  return { page, x, lines, floats: items.filter((it) => it.s > 0), top: Math.min(limit, lines.length ? lines[0].y : head),
    bottom: Math.min(limit, last ? last.y + last.h : head) };
}

/** Floats that move with an end: F6← comes back on the page, F6→ goes to the next.
 * @param {number[]} from @param {Accepted} to */
function floatsMoved(from, to) {
  const moved = (s, a, b) => b > a ? `${floatRange(s, a, b)}←` : b < a ? `${floatRange(s, b, a)}→` : '';
  return [moved(1, from[1], to.j), moved(2, from[2], to.d)].filter(Boolean).join(' ');
}

/** Where the page would end after line i, as drawn now.
 * @param {Side[]} sides @param {number} i */
function spot([here, next], i) {
  const { page } = here;
  if (i === page.b[0]) return { x: here.x, y: here.bottom };
  if (i === page.a[0]) return { x: here.x, y: here.top - 2 };
  const side = i < page.b[0] ? here : next, it = side?.lines[i - side.page.a[0] - 1];
  return it ? { x: side.x, y: it.y + it.h } : null;
}

/**
 * A tick at each line after which some end is accepted, short where floats must move too.
 * @param {Side[]} sides @param {Size} Z @param {number} y0 @param {Accepted[]} ends @param {number[]} end @param {number[] | null} star
 */
function ticks(sides, Z, y0, ends, end, star) {
  let marks = '', near = { x: -1, y: -99, words: '' };
  for (const e of ends) {
    const at = spot(sides, e.i), floats = floatsMoved(end, e), size = floats ? 15 : 24;
    if (!at || at.y > Z.H + Z.over) continue;
    const words = `${star && sameEnd([e.i, e.j, e.d], star) ? '★ ' : ''}${signed(e.change)}${floats ? ` ${floats}` : ''}`;
    const crowded = at.x === near.x && at.y - near.y < (words === near.words ? 40 : 9.5), labelled = !crowded && e.i !== end[0];
    if (labelled) near = { ...at, words };
    const dash = path('tp', `M${n(at.x + Z.PW - size)} ${n(y0 + at.y + 0.5)}h${size}`);
    const label = labelled ? text('tt', at.x + Z.PW - size - 4, y0 + at.y + 3.5, words) : '';
    marks += `<g class="tick ${tone(e.change)}${floats ? ' also' : ''}" data-i="${e.i}">${dash}${label}</g>`;
  }
  return marks;
}

/**
 * A button that sends a float to the other page.
 * @param {Page} here the page whose end is at hand @param {Side} side @param {number} k 1 on the next page
 * @param {Item} it @param {Size} Z @param {number} y0
 */
function flip(here, side, k, it, Z, y0) {
  const h = Math.max(6, Math.min(it.h, Z.H + Z.over - it.y)), cx = k ? side.x + 12 : side.x + Z.PW - 12;
  const cy = y0 + it.y + Math.min(h / 2, 12);
  const arrow = k ? `M${n(cx + 4)} ${n(cy)}h-8m3.5 -3.5l-3.5 3.5l3.5 3.5` : `M${n(cx - 4)} ${n(cy)}h8m-3.5 -3.5l3.5 3.5l-3.5 3.5`;
  const after = !k && it.k < here.b[it.s], before = k && it.k > here.b[it.s] + 1;
  const others = after ? ', with those after it' : before ? ', with those before it' : '';
  const words = `${' FT'[it.s]}${it.k} to page ${k ? here.q : here.q + 1}${others}`;
  const sign = h >= 12 ? circle('knob', cx, cy, 8.5) + path('way', arrow) : '', area = rect('area', side.x, y0 + it.y, Z.PW, h);
  return `<g class="flip" data-s="${it.s}" data-f="${it.k}" data-side="${k}">${area}${sign}${title(words)}</g>`;
}

/** @param {Side[]} sides @param {Size} Z @param {number} y0 */
function flips(sides, Z, y0) {
  const seen = (side) => side.floats.filter((it) => it.y <= Z.H);
  return sides.map((side, k) => seen(side).map((it) => flip(sides[0].page, side, k, it, Z, y0)).join('')).join('');
}

/**
 * A rounded box around words, centred.
 * @param {string} cls @param {number} x @param {number} y @param {number} w @param {number} h @param {string} told
 */
const pill = (cls, x, y, w, h, told) =>
  `<rect class="${cls}" x="${n(x - w / 2)}" y="${n(y - h / 2)}" width="${w}" height="${h}" rx="${h / 2}"/>`
  + text('num', x, y + 3.6, told);

/**
 * The bar under the last line of the page, with the line's number in it; and the same bar above the first line of the next page.
 * @param {Side[]} sides @param {Size} Z @param {number} y0 @param {number[]} end @param {State} state
 */
function bars(sides, Z, y0, end, state) {
  const cls = `bar ${state.trial ? tone(state.ok ? state.change : null) : 'rest'}`;
  const told = `${end[0] || '–'}${state.trial ? `  ${state.ok ? signed(state.change) : '✕'}` : ''}`;
  return sides.map((side, k) => {
    const y = y0 + (k ? side.top - 2.5 : side.bottom + 2.5), [up, high] = k ? [9, 16] : [11, 24];
    const line = path('line', `M${n(side.x - 7)} ${n(y)}h${n(Z.PW + 14)}`), hold = rect('hold', side.x - 8, y - up, Z.PW + 16, high);
    const knob = k ? circle('dot', side.x - 7, y, 3) : pill('knob', side.x + Z.PW / 2, y, 62, 17, told);
    return `<g class="${cls}${k ? ' second' : ''}" data-drag="1">${hold}${line}${knob}</g>`;
  }).join('');
}

/** A click below a line ends the page there.
 * @param {Side[]} sides @param {Size} Z @param {number} y0 */
function hits(sides, Z, y0) {
  const hit = (side, it) => `<rect class="hit" data-i="${it.k}" x="${n(side.x)}" y="${n(y0 + it.y)}" width="${n(Z.PW)}" `
    + `height="${n(Math.max(2, it.h + 1))}"/>`;
  return sides.flatMap((side) => side.lines.filter((it) => it.y <= Z.H + Z.over).map((it) => hit(side, it))).join('');
}

/** Where the end in force is, while another is tried.
 * @param {Side[]} sides @param {Size} Z @param {number} y0 @param {number} line */
function inForce(sides, Z, y0, line) {
  const at = spot(sides, line);
  if (!at || at.y > Z.H + Z.over) return '';
  return path('was', `M${n(at.x - 5)} ${n(y0 + at.y + 0.5)}h${n(Z.PW + 10)}`)
    + text('wast', at.x + 5, y0 + at.y - 3, `in force: ${line}`);
}

/**
 * The handle of the end of page q with its ticks, x from the left of page q's leaf.
 * @param {Galley} g @param {any} M measured list, the trial's or the one in force @param {Size} Z @param {number} y0 @param {number} q
 * @param {Accepted[]} ends one a line @param {State} state
 */
export function overlay(g, M, Z, y0, q, ends, state) {
  const page = M.pages[q - 1], end = page.b, { force } = state;
  const left = (one) => (one.leaf - page.leaf) * Z.w + Z.x(one.folio);
  const sides = [page, M.pages[q]].filter(Boolean).map((one) => sideOf(g, one, Z, left(one)));
  if (state.whole) return bars(sides, Z, y0, end, state);
  return hits(sides, Z, y0) + ticks(sides, Z, y0, ends, end, state.star) + flips(sides, Z, y0)
    + (state.trial && force[0] !== end[0] ? inForce(sides, Z, y0, force[0]) : '') + bars(sides, Z, y0, end, state);
}

/**
 * The handle at rest of another page.
 * @param {Galley} g @param {Page} page @param {Size} Z @param {number} y0 @param {number} gain in turns, where another end has fewer
 * @param {boolean} follows the end before it
 */
export function grip(g, page, Z, y0, gain, follows) {
  const { items } = setPage(g, page, Z), last = items.filter((it) => it.s === 0).pop() ?? items[items.length - 1];
  const y = y0 + Math.min(Z.H + Z.over, last ? last.y + last.h : 0) + 2, x = Z.x(page.folio), better = gain < 0;
  const told = `${page.b[0]}${better ? `  ${signed(gain)}` : follows ? '  follows' : ''}`;
  const why = better ? `: another end has ${-gain} fewer turns` : follows ? ', moved together with the end before it' : '';
  const marks = rect('h', x, y - 11, Z.PW, 22) + path('line', `M${n(x)} ${n(y)}h${n(Z.PW)}`)
    + pill('pl', x + Z.PW / 2, y, better || follows ? 60 : 36, 15, told) + title(`the end of page ${page.q}${why}`);
  return `<g class="grip${better ? ' gain' : ''}${follows ? ' follows' : ''}" data-q="${page.q}">${marks}</g>`;
}
