// The key: only marks that occur.
import { circle, drawing, path, rect, text } from './svg.js';

/**
 * @typedef {import('../galley/galley.js').Galley} Galley
 * @typedef {import('../galley/measure.js').Measured} Measured
 */

/** @param {string} marks */
const mark = (marks) => drawing('st', 30, 16, marks);

/** @param {Galley} g @param {Measured[]} order @returns {{svg: string, words: string}[]} */
export function key(g, order) {
  const pages = order.flatMap((L) => L.pages), floats = order.flatMap((L) => L.floats), out = [];
  const add = (occurs, marks, words) => { if (occurs) out.push({ svg: mark(marks), words }); };
  add(true, path('tl', 'M2 3h26v3h-26zM2 10h26v3h-26z'), 'line');
  add(g.count[1] + g.count[2], path('tc', 'M2 6h26v4h-26z'), 'line that cites');
  add(g.streams[0].some((line) => !line.end), path('tl', 'M2 2h26v4h-26zM2 10h26v4h-26z') + path('tk', 'M2 5h4v6h-4z'),
    'no page may end between');
  add(g.count[1], `<g class="fg">${rect('box', 2, 2, 26, 12)}</g>${text('fn th', 15, 11, 'F7')}`, 'figure');
  add(g.count[2], `<g class="tb">${rect('box', 2, 2, 26, 12)}${path('td', 'M2 3h26M2 13h26')}</g>${text('fn th tn', 15, 11, 'T3')}`,
    'table');
  add(pages.some((page) => page.white > 0), rect('wh', 2, 2, 26, 12), 'white space');
  add(floats.some((F) => F.turns === 0), `<g class="qa">${path('qp', 'M4 13C18 13 18 4 4 4')}${circle('qs', 4, 13, 1.5)}</g>`,
    'citation and float, no turn');
  add(floats.some((F) => F.turns > 0), `<g class="la">${path('lp', 'M1 8h28')}${circle('tn', 15, 8, 3.6)}</g>`,
    'float that waits, a dot a turn');
  add(floats.some((F) => F.turns < 0), `<g class="la bk">${path('lp', 'M1 8h28')}</g>`, 'float too soon');
  add(true, `<g class="gg">${rect('gw', 12, 1, 5, 14)}${path('gb', 'M12 4h5M14.5 4v8M12 12h5')}</g>`,
    'tightest to loosest height in what is allowed');
  add(pages.some((page) => page.bad.length), rect('bd', 3, 2, 24, 12), 'page that breaks a rule');
  return out;
}
