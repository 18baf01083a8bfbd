// One leaf as large as fits, the lists side by side, every line numbered.
import { large, lanes } from '../../layout/layout.js';
import { staff } from '../../draw/staff.js';
import { byId, drawn, el, put } from '../dom.js';

/** @typedef {import('./show.js').Scene} Scene */

/** @param {Scene} scene @param {number} leaf */
export function openLarge(scene, leaf) {
  const dialog = byId('large'), { g, order, leaves } = scene, beside = innerWidth > 900 ? order.length : 1;
  const Z = large(g, Math.max(420, innerHeight - 190), (innerWidth - 80) / beside);
  const ways = order.map((L) => lanes(L, Z)), word = g.sides === 2 ? 'Spread' : 'Page';
  let at = leaves.indexOf(leaf);
  const draw = () => {
    const i = leaves[at], anyBad = order.some((L) => (L.byLeaf.get(i) ?? []).some((page) => page.bad.length));
    put(byId('largetitle'), `${word} ${i}`);
    put(byId('largebody'), order.map((L, c) => el('figure', {},
      el('figcaption', {}, L.name, L.byLeaf.has(i) ? '' : ' has no page here'),
      drawn(staff(g, L, ways[c], i, Z, { anyBad, anyOver: true, label: L.name }).svg))));
    byId('largeprev').disabled = at === 0;
    byId('largenext').disabled = at === leaves.length - 1;
  };
  const go = (step) => {
    at = Math.max(0, Math.min(leaves.length - 1, at + step));
    draw();
  };
  byId('largeprev').onclick = () => go(-1);
  byId('largenext').onclick = () => go(1);
  dialog.onkeydown = (event) => {
    const step = { ArrowLeft: -1, ArrowRight: 1, Home: -leaves.length, End: leaves.length }[event.key];
    if (!step) return;
    event.preventDefault();
    go(step);
  };
  dialog.onclose = () => {
    const column = byId(`s${leaves[at]}`);
    column?.scrollIntoView({ block: 'nearest' });
    column?.focus({ preventScroll: true });
  };
  draw();
  dialog.showModal();
}
