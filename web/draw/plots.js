// Small plots: staircases of turns lost, dots on a scale, bars.
import { n } from '../layout/layout.js';
import { circle, drawing, path, rect, text } from './svg.js';

/**
 * One step of the staircase of turns lost, under a column of the overview.
 * @param {number} d @param {number} before @param {number} w @param {number} most
 */
export function stair(d, before, w, most) {
  const y = 28 - 16 * d / most, v = 28 - 16 * before / most;
  let marks = d ? rect('lead', 0, Math.min(y, 28), w, Math.abs(28 - y)) : '';
  marks += path('leadz', `M0 28h${n(w)}`);
  if (d || before) marks += path('leadl', `M0 ${n(v)}V${n(y)}H${n(w)}`);
  if (d !== before) marks += text('leadn', w / 2, d >= 0 ? y - 3 : y + 8, `${d > 0 ? '+' : ''}${d}`);
  return drawing('plot', w, 31, marks);
}

/** Where the gridlines of a scale from 0 stand.
 * @param {number} most @returns {number[]} */
export function ticks(most) {
  const step = [1, 2, 5, 10, 20, 50, 100, 200, 500, 1000, 1e9].find((s) => most / s <= 6), out = [];
  for (let v = 0; v <= most; v += step) out.push(v);
  return out;
}

const WIDE = 200;

/** @param {number} most */
const scaled = (most) => (v) => 8 + (WIDE - 16) * v / most;

/** Turns more than the engine, as a dot on the scale that all rows share.
 * @param {number | null} more @param {number} most */
export function dotPlot(more, most) {
  const x = scaled(most);
  let marks = ticks(most).map((v) => path(v ? 'ax' : 'ax0', `M${n(x(v))} 0v30`)).join('');
  if (more !== null) marks += (more ? path('dl', `M${n(x(0))} 15H${n(x(more))}`) : '') + circle(more ? 'dd' : 'd0', x(more), 15, 4.5);
  return drawing('plot', WIDE, 30, marks);
}

/** The scale above the dots.
 * @param {number} most */
export function dotScale(most) {
  return drawing('plot', WIDE, 16, ticks(most).map((v) => text('axt', scaled(most)(v), 11, v ? `+${v}` : 0)).join(''));
}

/**
 * Turns lost to the best as the leaves go by; a cross where a refused list first breaks a rule.
 * @param {number[]} lost @param {number} most @param {number | null} cross the leaf of the cross, from 0
 */
export function staircase(lost, most, cross) {
  const w = 150 / Math.max(1, lost.length), y = (d) => 25 - 20 / most * Math.max(-1, Math.min(d, most));
  let d = `M0 ${n(y(lost[0] ?? 0))}`;
  lost.forEach((v, k) => { d += `V${n(y(v))}H${n((k + 1) * w)}`; });
  let marks = path('ax', 'M0 25h150');
  if (cross !== null) marks += path('spx', `M${n((cross + 0.5) * w - 3)} 22l6 6m0 -6l-6 6`);
  else if (lost.some(Boolean)) marks += path('spa', `${d}V25H0z`) + path('spl', d);
  return drawing('plot', 150, 30, marks);
}

/** @param {number} share 0 to 1 */
export const bar = (share) => drawing('plot', WIDE, 12, rect('hb', 0, 1, WIDE * share, 9));
