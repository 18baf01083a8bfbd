// Positions, and nothing but positions: the size of a column, the items of a page, the lanes of floats that wait.

/**
 * @typedef {import('../galley/galley.js').Galley} Galley
 * @typedef {import('../galley/page.js').Page} Page
 * @typedef {import('../galley/measure.js').Measured} Measured
 * @typedef {import('../galley/measure.js').Float} Float
 * @typedef {object} Size
 * @property {boolean} small the overview @property {boolean} two double-sided @property {number} f growth of the overview
 * @property {number} H height of htMax @property {number} PW width of the text block
 * @property {number} out outer margin @property {number} gut gutter @property {number} sheet inset of the paper
 * @property {number} lane pitch @property {number} top @property {number} foot @property {number} headroom
 * @property {number} most lanes before bundling
 * @property {number} text baseline of the page's foot @property {number} w width of a column
 * @property {number} scale @property {number} over most that is drawn past htMax
 * @property {boolean} numbered every line has its number, however low it is
 * @property {(folio: number) => number} x left edge of a page's text block
 * @typedef {{s: number, k: number, y: number, h: number}} Item
 * @typedef {{F: Float, back: boolean, p: Page, e: Page, i0: number, i1: number, x0: number, x1: number, lane: number,
 *   bundle: boolean, cx: number, ex: number}} Arc  from page p on leaf i0 to page e on leaf i1
 * @typedef {{arcs: Arc[], lanes: number, over: Map<number, Arc[]>}} Lanes  over: the arcs that each leaf sees
 */

/** Least distance, in columns, between arcs in one lane. */
const APART = 0.2;

/** @param {Galley} g @param {Partial<Size>} sizes @returns {Size} */
function size(g, sizes) {
  const Z = /** @type {Size} */ ({ over: 0, f: 1, text: 13, two: g.sides === 2, small: false, numbered: false, ...sizes });
  Z.w = 2 * Z.out + (Z.two ? 2 * Z.PW + Z.gut : Z.PW + (Z.small ? 0 : 8));
  Z.scale = Z.H / g.htMax;
  Z.x = (folio) => !Z.two || folio % 2 === 0 ? Z.out : Z.out + Z.PW + Z.gut;
  return Z;
}

/** The reel.
 * @param {Galley} g */
export const detail = (g) => size(g, { H: 200, PW: 126, out: 24, gut: 36, sheet: 5, lane: 11, top: 9, foot: 19, headroom: 6, most: 7 });

/** The overview; f grows it where there are few leaves.
 * @param {Galley} g @param {number} leaves @param {number} [greatest] */
export function overview(g, leaves, greatest = 2.4) {
  const f = Math.min(greatest, Math.max(1, (g.sides === 2 ? 36 : 63) / leaves)), r = Math.sqrt(f);
  return size(g, { small: true, f, H: 20 * f, PW: 13 * f, out: 4 * f, gut: 3 * f, sheet: 1.5 * f, lane: 3.2 * r, top: 2 * f,
    foot: 2 * f, headroom: 3 * r, most: 9 });
}

/**
 * The desk's strip: the page as high as it may be, the rest in proportion.
 * @param {Galley} g @param {number} H @param {number} PW
 */
export const strip = (g, H, PW) => size(g, { H, PW, out: 26, gut: 40, sheet: 5, lane: 13, top: 11, foot: 31, text: 24,
  headroom: 6, most: 7, over: 20 });

/**
 * The large view: as high as asked, or so high that nearly every line has room for its number; as wide as there is room.
 * @param {Galley} g @param {number} asked @param {number} room for the two pages of a spread
 */
export function large(g, asked, room) {
  const low = g.streams[0].map((line) => line.h).filter(Boolean).sort((a, b) => a - b);
  const typical = low[Math.floor(low.length / 4)] ?? g.htMax;
  const H = Math.max(asked, Math.min(2 * asked, 11 * g.htMax / typical)), fits = (room - 60 - (g.sides === 2 ? 44 : 8)) / g.sides;
  const PW = Math.max(130, Math.min(0.63 * H, fits, 440));
  return size(g, { H, PW, out: 30, gut: 44, sheet: 6, lane: 13, top: 12, foot: 24, text: 16, headroom: 8, most: 9, over: 34,
    numbered: true });
}

/**
 * The items of a page: figures at the head, lines, tables at the foot; spaces as wide as it takes to reach htMax.
 * @param {Galley} g @param {Page} page @param {Size} Z @returns {{items: Item[], foot: number}}
 */
export function setPage(g, page, Z) {
  const goal = page.last ? page.least : g.htMax;
  const r = page.l > page.t ? Math.min(1, Math.max(0, (goal - page.t) / (page.l - page.t))) : goal > page.t ? 1 : 0;
  const items = [];
  let y = 0, any = false;
  for (const s of [1, 0, 2]) {
    const a = page.a[s], b = page.b[s];
    if (b <= a) continue;
    if (any) y += g.sMin + r * (g.sMax - g.sMin);
    any = true;
    for (let k = a; k < b; k++) {
      const item = g.streams[s][k];
      items.push({ s, k: k + 1, y: y * Z.scale, h: item.h * Z.scale });
      y += item.h;
      if (k < b - 1) y += item.least + r * (item.most - item.least);
    }
  }
  return { items, foot: y * Z.scale };
}

/** The floats that wait, or stand too soon, by where they start.
 * @param {Measured} L @param {Size} Z @returns {Arc[]} */
function arcsOf(L, Z) {
  /** @type {Arc[]} */ const arcs = [];
  for (const F of L.floats) {
    if (!F.turns) continue;
    const back = F.turns < 0, p = back ? F.fp : F.cp, e = back ? F.cp : F.fp;
    const x0 = p.leaf + (Z.x(p.folio) + Z.PW) / Z.w, x1 = e.leaf + Z.x(e.folio) / Z.w;
    arcs.push({ F, back, p, e, i0: p.leaf, i1: e.leaf, x0, x1, lane: 0, bundle: false, cx: 0, ex: 0 });
  }
  return arcs.sort((A, B) => A.x0 - B.x0 || A.F.cite - B.F.cite || A.F.s - B.F.s || A.F.k - B.F.k);
}

/** Arcs that overlap.
 * @param {Arc[]} arcs @returns {Arc[][]} */
function groupsOf(arcs) {
  const groups = [];
  let reach = -Infinity;
  for (const A of arcs) {
    if (A.x0 > reach + APART) {
      groups.push([]);
      reach = A.x1;
    }
    groups[groups.length - 1].push(A);
    reach = Math.max(reach, A.x1);
  }
  return groups;
}

/** Lanes for a group, from the top down in turn; as many as overlap at once.
 * @param {Arc[]} group @returns {number} how many */
function giveLanes(group) {
  let open = [], count = 0;
  for (const A of group) {
    open = open.filter((end) => end + APART > A.x0);
    open.push(A.x1);
    count = Math.max(count, open.length);
  }
  const busy = new Array(count).fill(-1);
  let at = count - 1;
  for (const A of group) {
    A.lane = count - 1;
    for (let step = 0; step < count; step++) {
      const lane = (at - step + count) % count;
      if (busy[lane] >= 0 && busy[lane] + APART > A.x0) continue;
      A.lane = lane;
      busy[lane] = A.x1;
      at = (lane - 1 + count) % count;
      break;
    }
  }
  return count;
}

/** The upper item of a page has the inner channel. */
function channels(arcs, page, key, put) {
  const by = new Map();
  for (const A of arcs) {
    const group = by.get(page(A));
    if (group) group.push(A); else by.set(page(A), [A]);
  }
  for (const group of by.values()) {
    const keys = [...new Set(group.map(key))].sort((a, b) => a - b), gap = Math.min(3.2, 10 / keys.length);
    for (const A of group) put(A, 3.4 + gap * keys.indexOf(key(A)));
  }
}

/**
 * Every float that waits, with its lane and the channels in which it rises and drops. The one cited first has the upper lane.
 * @param {Measured} L @param {Size} Z @returns {Lanes}
 */
export function lanes(L, Z) {
  const arcs = arcsOf(L, Z);
  const used = Math.max(0, ...groupsOf(arcs).map(giveLanes));
  for (const A of arcs) {
    if (A.lane < Z.most) continue;
    A.bundle = true;
    A.lane = Z.most;
  }
  channels(arcs, (A) => A.p.q, (A) => A.F.cite, (A, x) => { A.cx = x; });
  channels(arcs, (A) => A.e.q, (A) => A.F.s * 1000 + A.F.k, (A, x) => { A.ex = x; });
  const over = new Map();
  for (const A of arcs) {
    for (let i = A.i0; i <= A.i1; i++) {
      const seen = over.get(i);
      if (seen) seen.push(A); else over.set(i, [A]);
    }
  }
  return { arcs, lanes: Math.min(used, Z.most + 1), over };
}

/**
 * Heights of one staff, from top to bottom.
 * @param {Size} Z @param {number} rows @param {boolean} anyBad @param {boolean} anyOver
 */
export function staffHeights(Z, rows, anyBad, anyOver) {
  const sheet = rows * Z.lane + Z.headroom, y0 = sheet + Z.top, over = anyOver ? Z.over : 0;
  return { sheet, y0, over, paper: Z.top + Z.H + Z.foot, total: y0 + Z.H + over + Z.foot + (anyBad && !Z.small ? 12 : 0) };
}

/** A polyline with round corners, as a path.
 * @param {number[][]} points @param {number} r */
export function rounded(points, r) {
  let d = `M${n(points[0][0])} ${n(points[0][1])}`;
  for (let k = 1; k < points.length - 1; k++) {
    const [x0, y0] = points[k - 1], [x, y] = points[k], [x1, y1] = points[k + 1];
    const q = Math.min(r, (Math.abs(x - x0) + Math.abs(y - y0)) / 2, (Math.abs(x1 - x) + Math.abs(y1 - y)) / 2);
    d += `L${n(x - Math.sign(x - x0) * q)} ${n(y - Math.sign(y - y0) * q)}`;
    d += `Q${n(x)} ${n(y)} ${n(x + Math.sign(x1 - x) * q)} ${n(y + Math.sign(y1 - y) * q)}`;
  }
  const [x, y] = points[points.length - 1];
  return `${d}L${n(x)} ${n(y)}`;
}

/** A coordinate: one decimal at most.
 * @param {number} x */
export const n = (x) => String(Math.round(x * 10) / 10);
