// One page: its lines, figures and tables, white space, gauge and foot.
import { floatWords } from '../galley/explain.js';
import { length } from '../galley/words.js';
import { n, setPage } from '../layout/layout.js';
import { path, rect, text, title } from './svg.js';

/**
 * @typedef {import('../galley/galley.js').Galley} Galley
 * @typedef {import('../galley/page.js').Page} Page
 * @typedef {import('../galley/measure.js').Measured} Measured
 * @typedef {import('../layout/layout.js').Size} Size
 * @typedef {import('../layout/layout.js').Item} Item
 * @typedef {{l: number, r: number, y: number, cut: boolean}} Spot  where an arc meets an item
 * @typedef {{lines: [number, number][], floats: Set<string>}} Moved  what stands elsewhere than in the list in force
 */

/** A line this high has room for its number. */
const NUMBERED = 9.5;

/** Lines as few paths, however many there are. */
class Lines {
  /** @param {number} x @param {number} y0 @param {Size} Z @param {Measured} L @param {Moved | null} moved */
  constructor(x, y0, Z, L, moved) {
    this.x = x;
    this.y0 = y0;
    this.Z = Z;
    this.L = L;
    this.moved = moved;
    this.bars = '';
    this.dark = '';
    this.tint = '';
    this.ties = '';
    this.texts = '';
  }

  /** @param {Galley} g @param {Item} it @param {Item | undefined} next @param {number} limit */
  add(g, { k, y, h }, next, limit) {
    const { x, y0, Z } = this, hh = Math.min(h, limit - y), ink = Math.max(0.6, hh - Math.min(1, 0.22 * hh));
    const tall = hh >= NUMBERED, cited = this.L.cites.get(k);
    const bar = `M${n(x)} ${n(y0 + y)}h${n(Z.PW)}v${n(ink)}h-${n(Z.PW)}z`;
    if (cited && tall) for (const left of cited) this.dark += `M${n(left ? x : x + Z.PW - 4)} ${n(y0 + y)}h4v${n(ink)}h-4z`;
    if (cited && !tall) this.dark += bar; else this.bars += bar;
    if (this.moved?.lines.some(([from, to]) => k > from && k <= to)) this.tint += bar;
    if (!g.streams[0][k - 1].end && next && next.s === 0) {
      this.ties += `M${n(x)} ${n(y0 + y + ink - 0.3)}h3v${n(Math.max(0.8, Math.min(next.y, limit) - y - ink + 0.6))}h-3z`;
    }
    if (tall) this.texts += text('ln', x + 5, y0 + y + hh / 2 + 3, `${hh >= 13 ? 'line ' : ''}${k}`);
    else if (Z.numbered) this.texts += text('ln low', x - 3, y0 + y + hh / 2 + 2.2, k, 'end');
  }

  /** Below the floats. */
  under() {
    return [['tl', this.bars], ['tc', this.dark], ['tm', this.tint], ['tk', this.ties]].map(([c, d]) => d && path(c, d)).join('');
  }
}

/**
 * The items of a page. `where` gets what arcs need.
 * @param {Galley} g @param {Measured} L @param {Page} page @param {Size} Z @param {number} y0 @param {Map<string, Spot>} where
 * @param {Moved | null} moved
 */
export function items(g, L, page, Z, y0, where, moved) {
  const x = Z.x(page.folio), set = setPage(g, page, Z), limit = Z.H + Z.over, lines = new Lines(x, y0, Z, L, moved);
  /** @type {Item[][]} */ const floats = [[], [], []];
  let top = NaN, bottom = 0;
  set.items.forEach((it, z) => {
    where.set(`${it.s} ${it.k}`, { l: x, r: x + Z.PW, y: y0 + Math.min(it.y + it.h / 2, limit), cut: it.y > limit });
    if (it.y > limit) return;
    const h = Math.min(it.h, limit - it.y);
    if (it.s > 0) floats[it.s].push({ ...it, h });
    else if (Z.small) {
      if (Number.isNaN(top)) top = it.y;
      bottom = it.y + h;
    } else lines.add(g, it, set.items[z + 1], limit);
  });
  const boxes = [1, 2].map((s) => floats[s].map((it) => floatBox(g, L, page, Z, x, y0, it, moved)).join('')).join('');
  if (Z.small) return (Number.isNaN(top) ? '' : rect('tx', x, y0 + top, Z.PW, Math.max(0.7, bottom - top))) + boxes;
  const labels = [1, 2].map((s) => together(floats[s]).map((run) => floatLabel(s, run, x, y0, Z)).join('')).join('');
  return lines.under() + boxes + labels + lines.texts + whiteSpace(g, page, Z, x, y0, set.foot) + torn(Z, x, y0, set.foot, limit);
}

/** White space that counts in W, never on the last page. */
function whiteSpace(g, page, Z, x, y0, foot) {
  if (page.last || foot >= Z.H - 0.8) return '';
  const words = length(g, page.white), room = Z.H - foot > 12, at = x + Z.PW * (Z.text === 24 ? 0.16 : 0.5);
  const told = room ? text('wn', at, y0 + (foot + Z.H) / 2 + 3, words) : '';
  return `<g>${rect('wh', x, y0 + foot, Z.PW, Z.H - foot)}${told}${title(`white space ${words}`)}</g>`;
}

/** A page that is cut off. */
function torn(Z, x, y0, foot, limit) {
  if (foot <= limit + 0.5) return '';
  let d = `M${n(x - 2)} ${n(y0 + limit - 3)}`;
  for (let c = 0; c < 12; c++) d += `l${n((Z.PW + 4) / 12)} ${c % 2 ? 4 : -4}`;
  return path('torn', d);
}

/**
 * @param {Galley} g @param {Measured} L @param {Page} page @param {Size} Z @param {number} x @param {number} y0
 * @param {Item} it @param {Moved | null} moved
 */
function floatBox(g, L, page, Z, x, y0, { s, k, y, h }, moved) {
  const id = ' FT'[s] + k, thin = h < 4 && !Z.small, tall = Math.max(h, Z.small ? 1.2 : 0.6), inset = Z.small || thin ? 0 : 0.5;
  const kind = s === 1 ? 'fg' : 'tb';
  const box = rect(Z.small ? kind : 'box', x + inset, y0 + y + inset, Z.PW - 2 * inset, Math.max(0.5, tall - 2 * inset));
  if (Z.small) return box;
  let marks = box;
  if (s === 2 && tall > 7) {
    const rows = Math.floor((tall - 3) / 7);
    let d = '';
    for (let r = 1; r <= rows; r++) d += `M${n(x + 3)} ${n(y0 + y + r * tall / (rows + 1))}h${n(Z.PW - 6)}`;
    const rules = `M${n(x + 0.5)} ${n(y0 + y + 1)}h${n(Z.PW - 1)}M${n(x + 0.5)} ${n(y0 + y + tall - 1)}h${n(Z.PW - 1)}`;
    marks += path('tr', d) + path('td', rules);
  }
  if (s === 1 && k < g.count[1] && !g.streams[1][k - 1].end && page.b[1] > k) {
    marks += path('kp', `M${n(x + Z.PW / 2)} ${n(y0 + y + tall - 3)}v${n(6 + g.streams[1][k - 1].most * Z.scale)}`);
  }
  const state = `${thin ? ' hair' : ''}${moved?.floats.has(id) ? ' mv' : ''}`;
  return `<g class="fl ${kind}${state}" data-k="${id}">${marks}${title(floatWords(g, L.byId.get(id)))}</g>`;
}

/** Floats too thin for labels of their own share one.
 * @param {Item[]} floats @returns {Item[][]} */
function together(floats) {
  const runs = /** @type {Item[][]} */ ([]);
  for (const it of floats) {
    const run = runs[runs.length - 1], last = run?.[run.length - 1];
    if (last && it.h < 9 && last.h < 9 && it.y - last.y < 9) run.push(it); else runs.push([it]);
  }
  return runs;
}

/** @param {number} s @param {Item[]} run @param {number} x @param {number} y0 @param {Size} Z */
function floatLabel(s, run, x, y0, Z) {
  const first = run[0], last = run[run.length - 1], a = first.y, b = last.y + last.h, size = b - a >= 13 ? 11 : 8;
  const label = `${' FT'[s]}${first.k}${run.length > 1 ? `–${last.k}` : ''}`, y = y0 + Math.max(4, (a + b) / 2) + size * 0.36;
  return text(`fn${size === 8 ? ' th' : ''}${s === 2 ? ' tn' : ''}`, x + Z.PW / 2, y, label);
}

/**
 * The page's range of heights against the window that is allowed.
 * @param {Galley} g @param {Page} page @param {Size} Z @param {number} y0
 */
export function gauge(g, page, Z, y0) {
  const left = Z.two && page.folio % 2 === 0, x = left ? Z.sheet + 4 : Z.w - Z.sheet - 4, top = Z.H + Z.over;
  const a = Math.min(page.least, g.htMax) * Z.scale, t = Math.min(page.t * Z.scale, top), l = Math.min(page.l * Z.scale, top);
  const misses = page.bad.some(({ rule }) => rule === 15 || rule === 16);
  const [tight, loose, least, most] = [page.t, page.l, page.least, g.htMax].map((height) => length(g, height));
  const words = `page ${page.q}: tightest ${tight}, loosest ${loose}; allowed ${least} to ${most}`;
  const beam = `M${n(x - 2.5)} ${n(y0 + t)}h5M${n(x)} ${n(y0 + t)}v${n(Math.max(0.1, l - t))}M${n(x - 2.5)} ${n(y0 + l)}h5`;
  const marks = rect('gw', x - 2.5, y0 + a, 5, Math.max(1, Z.H - a)) + path('gb', beam) + title(words);
  return `<g class="gg${misses ? ' no' : ''}">${marks}</g>`;
}

/** Folio, lines and fill.
 * @param {Galley} g @param {Page} page @param {Size} Z @param {number} y0 */
export function pageFoot(g, page, Z, y0) {
  const x = Z.x(page.folio), left = !Z.two || page.folio % 2 === 0, over = page.t * Z.scale > Z.H + 1 ? Z.over : 0;
  const y = y0 + Z.H + Z.text + over, [a, b] = [page.a[0] + 1, page.b[0]];
  const fill = `${Math.round(100 * Math.min(page.l, g.htMax) / g.htMax)}%`;
  return text('fo', left ? x : x + Z.PW, y, page.folio, left ? 'start' : 'end')
    + text('fi', left ? x + Z.PW : x, y, fill, left ? 'end' : 'start')
    + (b < a ? '' : text('lr', x + Z.PW / 2, y, a === b ? b : `${a}–${b}`));
}
