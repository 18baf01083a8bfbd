// Arcs from citations to floats: a thin curve where no leaf is turned, a line in a lane with a dot a turn where a float waits.
import { plural } from '../galley/words.js';
import { n, rounded } from '../layout/layout.js';
import { circle, path, text } from './svg.js';

/**
 * @typedef {import('../galley/measure.js').Float} Float
 * @typedef {import('../layout/layout.js').Size} Size
 * @typedef {import('../layout/layout.js').Arc} Arc
 * @typedef {import('./page.js').Spot} Spot
 */

/**
 * A citation and its float on one leaf.
 * @param {Float} F @param {Spot} c @param {Spot} f @param {Size} Z @param {boolean} many
 */
export function quietArc(F, c, f, Z, many) {
  let x = c.r, d;
  if (F.cp === F.fp) {
    const bulge = c.r + (3 + 8 * Math.min(1, Math.abs(c.y - f.y) / Z.H)) * 1.33;
    d = `M${n(c.r)} ${n(c.y)}C${n(bulge)} ${n(c.y)} ${n(bulge)} ${n(f.y)} ${n(c.r)} ${n(f.y)}`;
  } else if (F.cp.q < F.fp.q) d = `M${n(c.r)} ${n(c.y)}C${n(c.r + 16)} ${n(c.y)} ${n(f.l - 16)} ${n(f.y)} ${n(f.l)} ${n(f.y)}`;
  else {
    x = c.l;
    d = `M${n(c.l)} ${n(c.y)}C${n(c.l - 16)} ${n(c.y)} ${n(f.r + 16)} ${n(f.y)} ${n(f.r)} ${n(f.y)}`;
  }
  return `<g class="qa${many ? ' mq' : ''}" data-k="${F.id}">${path('qp', d)}${circle('qs', x, c.y, 1.5)}</g>`;
}

/** The height of a lane.
 * @param {Size} Z @param {number} sheet @param {number} lane */
const laneHeight = (Z, sheet, lane) => sheet - Z.headroom / 2 - (lane + 0.5) * Z.lane;

/**
 * The corners of an arc within leaf i.
 * @param {Arc} A @param {number} i @param {Size} Z @param {number} y @param {Map<string, Spot>} where
 */
function corners(A, i, Z, y, where) {
  const line = `0 ${A.F.cite}`, float = `${A.F.s} ${A.F.k}`, points = [];
  if (A.i0 === i) {
    const at = where.get(A.back ? float : line), out = Z.small ? 1.5 : A.cx;
    points.push([at.r, at.y], [at.r + out, at.y], [at.r + out, y]);
  } else points.push([0, y]);
  if (A.i1 === i) {
    const at = where.get(A.back ? line : float), out = Z.small ? 1.5 : A.ex;
    points.push([at.l - out, y], [at.l - out, at.y], [at.l - (Z.small ? 0 : 1), at.y]);
  } else points.push([Z.w, y]);
  return points;
}

/**
 * A float that waits, as far as leaf i sees it.
 * @param {Arc} A @param {number} i @param {Size} Z @param {number} sheet @param {Map<string, Spot>} where
 */
export function loudArc(A, i, Z, sheet, where) {
  const y = laneHeight(Z, sheet, A.lane), points = corners(A, i, Z, y, where), r = Math.sqrt(Z.f), end = points[points.length - 1];
  let marks = path('lp', rounded(points, Z.small ? 1.5 : 4));
  if (A.i0 === i) marks += circle('st', points[0][0], points[0][1], Z.small ? 0.9 * r : 2);
  if (A.i0 < i) marks += circle('tn', Z.small ? 1.8 * r : 4.6, y, Z.small ? 1.6 * r : 3.6);
  if (A.i1 === i && !Z.small) marks += path('ah', `M${n(end[0])} ${n(end[1])}l-4.5 -2.4v4.8z`);
  if (!Z.small && !A.bundle) marks += label(A, i, Z, y);
  return `<g class="la${A.back ? ' bk' : ''}" data-k="${A.F.id}">${marks}</g>`;
}

/** Labels never meet risers: where an arc leaves, where it arrives, and in passing. */
function label(A, i, Z, y) {
  const id = A.F.id;
  if (A.i1 === i) {
    return text('lt', Z.x(A.e.folio) + 1, y + 3, A.back ? `${id} too soon` : `${id}  ${plural(A.F.turns, 'turn')}`, 'start');
  }
  if (A.i0 === i) {
    return text('lt', Z.x(A.p.folio) + Z.PW + 1, y + 3, A.back ? `${id}, cited on p ${A.e.q}` : `${id} → p ${A.e.q}`, 'end');
  }
  return text('lt', Z.out + Z.PW / 2, y + 3, id, 'middle');
}

/** What the bundle lane holds.
 * @param {Arc[]} bundle @param {number} i @param {Size} Z @param {number} sheet */
export function bundleLabel(bundle, i, Z, sheet) {
  if (!bundle.length) return '';
  const y = laneHeight(Z, sheet, Z.most) + 3, came = bundle.filter((A) => A.i0 < i).length;
  return came ? text('lt', 12, y, `×${came}`) : text('lt', Z.x(bundle[0].p.folio) + Z.PW + 1, y, `${bundle.length} more`, 'end');
}
