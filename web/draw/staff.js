// A leaf of a list: its pages to scale, and the floats that wait in lanes above them. The dots of a list are its X.
import { floatWords } from '../galley/explain.js';
import { n, staffHeights } from '../layout/layout.js';
import { bundleLabel, loudArc, quietArc } from './arcs.js';
import { gauge, items, pageFoot } from './page.js';
import { drawing, path, rect, text } from './svg.js';

/**
 * @typedef {import('../galley/galley.js').Galley} Galley
 * @typedef {import('../galley/page.js').Page} Page
 * @typedef {import('../galley/measure.js').Measured} Measured
 * @typedef {import('../layout/layout.js').Size} Size
 * @typedef {import('../layout/layout.js').Lanes} Lanes
 * @typedef {object} Options
 * @property {number} [rows] lanes to leave room for @property {boolean} [anyBad] @property {boolean} [anyOver]
 * @property {import('./page.js').Moved | null} [moved] @property {string} [label] @property {number[]} [focus] pages to outline
 * @property {number} [printed] pages that are printed and stay @property {string} [more] marks on top
 */

/** More quiet arcs than this in a leaf are drawn thin. */
const MANY = 24;

/** The paper of a page.
 * @param {Page} page @param {Size} Z @param {ReturnType<typeof staffHeights>} H @param {boolean} printed */
function paper(page, Z, H, printed) {
  const x = !Z.two || page.folio % 2 === 0 ? Z.sheet : Z.w / 2, w = Z.two ? Z.w / 2 - Z.sheet : Z.w - 2 * Z.sheet;
  const over = page.t * Z.scale > Z.H + 1 ? H.over : 0, sheet = rect(printed ? 'pp pd' : 'pp', x, H.sheet, w, H.paper + over);
  if (Z.small) return sheet;
  const stamp = printed ? text('ps', x + w / 2, H.sheet + 7, 'printed', 'middle') : '';
  return `${sheet}${path('fr', `M${n(Z.x(page.folio) - 1)} ${n(H.y0)}h${n(Z.PW + 2)}m0 ${n(Z.H)}h${n(-Z.PW - 2)}`)}${stamp}`;
}

/** The outline of a page that breaks a rule: solid where the marking names it. */
function fault(L, page, Z, H) {
  if (!page.bad.length) return '';
  const x = Z.x(page.folio), pad = Z.small ? 1 : 3, over = page.t * Z.scale > Z.H + 1 ? H.over : 0;
  const outline = rect(`bd${L.first.page === page.q ? '' : ' b2'}`, x - pad, H.y0 - pad, Z.PW + 2 * pad, Z.H + over + 2 * pad);
  if (Z.small) return outline;
  const nothing = page.a.every((v, s) => v === page.b[s]) ? text('em', x + Z.PW / 2, H.y0 + Z.H / 2, 'nothing') : '';
  const { rule, short } = page.bad[0];
  return `${outline}${nothing}${text('bt', x + Z.PW / 2, H.y0 + Z.H + H.over + Z.foot + 10, `${rule}  ${short}`)}`;
}

/** @param {Page} page @param {Size} Z @param {number} y0 */
const focusMark = (page, Z, y0) => rect('at', Z.x(page.folio) - 1.5, y0 - 1.5, Z.PW + 3, Z.H + 3);

/**
 * The drawing of leaf i of a list.
 * @param {Galley} g @param {Measured} L @param {Lanes} ways @param {number} i @param {Size} Z
 * @param {Options} [options] @returns {{svg: string, height: number}}
 */
export function staff(g, L, ways, i, Z, options = {}) {
  const pages = L.byLeaf.get(i) ?? [], arcs = ways.over.get(i) ?? [], where = new Map();
  const rows = options.rows ?? arcs.reduce((most, A) => Math.max(most, A.lane + 1), 0);
  const H = staffHeights(Z, rows, !!options.anyBad, !!options.anyOver), { y0, sheet } = H;
  let marks = '';
  for (const page of pages) marks += paper(page, Z, H, page.q <= (options.printed ?? 0));
  for (const page of pages) marks += items(g, L, page, Z, y0, where, options.moved ?? null);
  if (!Z.small) for (const page of pages) marks += gauge(g, page, Z, y0) + pageFoot(g, page, Z, y0);
  for (const page of pages) marks += (options.focus?.includes(page.q) ? focusMark(page, Z, y0) : '') + fault(L, page, Z, H);
  const quiet = Z.small ? [] : L.quiet.get(i) ?? [];
  for (const F of quiet) {
    const c = where.get(`0 ${F.cite}`), f = where.get(`${F.s} ${F.k}`);
    if (c && f && !c.cut && !f.cut) marks += quietArc(F, c, f, Z, quiet.length > MANY);
  }
  for (const A of arcs) marks += loudArc(A, i, Z, sheet, where);
  if (!Z.small) marks += bundleLabel(arcs.filter((A) => A.bundle), i, Z, sheet);
  const words = Z.small ? '' : leafWords(g, L, i, options.label ?? '', options.printed ?? 0);
  return { svg: drawing(Z.small ? 'sm' : 'st', Z.w, H.total, marks + (options.more ?? ''), words), height: H.total };
}

/**
 * A leaf for a screen reader.
 * @param {Galley} g @param {Measured} L @param {number} i @param {string} label @param {number} printed
 */
function leafWords(g, L, i, label, printed) {
  const pages = L.byLeaf.get(i) ?? [], told = label ? `${label}, ` : '';
  if (!pages.length) return `${told}no page here`;
  const words = pages.map((page) => {
    const parts = ['line', 'figure', 'table'].map((one, s) => {
      const a = page.a[s], b = page.b[s];
      return b === a + 1 ? `${one} ${b}` : b > a ? `${one}s ${a + 1} to ${b}` : '';
    }).filter(Boolean);
    const bad = page.bad.length ? `; breaks rule ${page.bad[0].rule}, ${page.bad[0].short}` : '';
    return `page ${page.q}${page.q <= printed ? ', printed' : ''}: ${parts.join(', ') || 'nothing'}${bad}.`;
  });
  const waited = L.floats.filter((F) => F.turns && F.fp.leaf === i).slice(0, 6).map((F) => `${floatWords(g, F)}.`);
  return told + [...words, ...waited].join(' ');
}
