// A page of a list, by numbers: its leaf and its heights.

/**
 * @typedef {import('./galley.js').Galley} Galley
 * @typedef {object} Page
 * @property {number} q @property {number} folio @property {number} leaf @property {boolean} last
 * @property {number[]} a @property {number[]} b  placed before it and with it
 * @property {number} t @property {number} l  tightest and loosest height
 * @property {number} least  the least that is asked of it
 * @property {import('./explain.js').Broken[]} bad  rules that it breaks
 * @property {number} white
 */

/** The leaf of a page: its spread in double-sided work, else itself.
 * @param {Galley} g @param {number} q */
export const leafOf = (g, q) => g.sides === 1 ? q : Math.floor((g.folio + q - 1) / 2) + 1;

/** Whether page q closes its leaf.
 * @param {Galley} g @param {number} q */
export const closesLeaf = (g, q) => g.sides === 1 || (g.folio + q - 1) % 2 === 1;

/** Tightest and loosest height of what lies between two ends.
 * @param {Galley} g @param {number[]} a @param {number[]} b */
export function heights(g, a, b) {
  let t = 0, l = 0, kinds = 0;
  for (let s = 0; s < 3; s++) {
    const x = a[s], y = b[s];
    if (y <= x) continue;
    const [h, least, most] = g.sums[s], tall = h[y] - h[x];
    kinds++;
    t += tall + least[y - 1] - least[x];
    l += tall + most[y - 1] - most[x];
  }
  const separations = Math.max(0, kinds - 1);
  return [t + separations * g.sMin, l + separations * g.sMax];
}

/** Whether a page may end behind this many of a stream.
 * @param {Galley} g @param {number} s @param {number} placed */
export const mayEnd = (g, s, placed) => placed === 0 || placed === g.count[s] || g.streams[s][placed - 1].end;

/** Whether the last float placed of each kind is cited by line i or before.
 * @param {Galley} g @param {number[]} end */
export const citedBy = (g, end) => [1, 2].every((s) => end[s] === 0 || g.streams[s][end[s] - 1].cite <= end[0]);

/**
 * Whether what lies between two ends could be page q, one that is not the last: 13 to 17 by themselves. It is for leaving out
 * what the marking would refuse; what is accepted is the marking's word.
 * @param {Galley} g @param {number} q @param {number[]} a @param {number[]} b
 */
export function couldBePage(g, q, a, b) {
  if (b.some((y, s) => y < a[s]) || b.every((y, s) => y === a[s])) return false;
  const [t, l] = heights(g, a, b);
  return t <= g.htMax && l >= g.htMin && mayEnd(g, 0, b[0]) && mayEnd(g, 1, b[1]) && (!closesLeaf(g, q) || citedBy(g, b));
}
