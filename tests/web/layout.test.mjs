// What is laid out and drawn of a list is what the page model says of it, on every accepted list of the cases and samples: heights between
// tightest and loosest, order, spaces, separations, nothing over htMax, nothing over anything else, white space, turns, and a dot a turn.
import assert from 'node:assert/strict';
import test from 'node:test';
import { staff } from '../../web/draw/staff.js';
import { measure } from '../../web/galley/measure.js';
import { toEnds } from '../../web/galley/list.js';
import { detail, lanes, overview, setPage, strip } from '../../web/layout/layout.js';
import { accepted } from './cases.mjs';

const NEAR = 1e-6;
const between = (least, got, most, what) => assert(least - NEAR <= got && got <= most + NEAR, `${what}: ${got} is not between ${least} and ${most}`);

/** The tightest and the loosest height of a page, from the blocks themselves. */
function heights(g, a, b) {
  const kinds = [0, 1, 2].filter((s) => b[s] > a[s]);
  const sum = (space, separation) => kinds.reduce((all, s) => {
    const blocks = g.streams[s].slice(a[s], b[s]);
    return all + blocks.reduce((high, block, k) => high + block.h + (k < blocks.length - 1 ? block[space] : 0), 0);
  }, separation * Math.max(0, kinds.length - 1));
  return [sum('least', g.sMin), sum('most', g.sMax)];
}

/** One page against the rules. */
function judge(g, a, b, P, Z) {
  const [tight, loose] = heights(g, a, b), { items, foot } = setPage(g, P, Z), high = (y) => y / Z.scale;
  assert.deepEqual([P.t, P.l], [tight, loose]);
  const order = { 1: 0, 0: 1, 2: 2 };                        // figures at the head, lines, tables at the foot
  assert.equal(items.length, [0, 1, 2].reduce((n, s) => n + b[s] - a[s], 0), 'every block once');
  items.forEach((item, k) => {
    const block = g.streams[item.s][item.k - 1], next = items[k + 1];
    assert(item.k > a[item.s] && item.k <= b[item.s], 'a block of this page');
    between(block.h, high(item.h), block.h, 'height of a block');
    if (!next) { between(high(foot), high(item.y + item.h), high(foot), 'the foot is where the last block ends'); return; }
    assert(order[next.s] > order[item.s] || (next.s === item.s && next.k === item.k + 1), 'order');
    const space = high(next.y - item.y - item.h);
    if (next.s === item.s) between(block.least, space, block.most, 'space after a block'); else between(g.sMin, space, g.sMax, 'separation');
  });
  between(tight, high(foot), Math.min(loose, Math.max(g.htMax, tight)), 'height of the page');
  assert(high(foot) <= g.htMax + NEAR, 'no page is higher than htMax');
  if (!P.last) {
    between(Math.min(loose, g.htMax), high(foot), g.htMax, 'a page but the last is as high as it can be');
    assert.equal(P.white, Math.max(0, g.htMax - loose), 'white space');
  }
}

/** The number of dots in the drawing of a whole list. */
function dots(g, measured, ways, Z) {
  let count = 0;
  for (let leaf = measured.leaf0; leaf <= measured.leaf1; leaf++) count += (staff(g, measured, ways, leaf, Z).svg.match(/class="tn"/g) ?? []).length;
  return count;
}

test('pages are set as the page model says', async (t) => {
  let pages = 0, lists = 0;
  for await (const { g, list, mark } of accepted()) {
    const ends = toEnds(list, g.width), measured = measure(g, ends);
    assert.deepEqual([measured.ok, measured.p, measured.X, measured.Y, measured.T, measured.W], [true, mark.p, mark.x, mark.y, mark.t, mark.w]);
    let before = [0, 0, 0];
    for (const P of measured.pages) {
      const end = ends[P.q - 1];
      for (const Z of [detail(g), strip(g, 400, 300)]) judge(g, before, end, P, Z);
      before = end;
      pages++;
    }
    lists++;
  }
  assert(lists > 3000 && pages > 8000, `${lists} lists, ${pages} pages`);
  t.diagnostic(`${pages} pages of ${lists} accepted lists set by the page model`);
});

test('a float that waits has a lane of its own as long as it waits', async (t) => {
  let arcs = 0;
  for await (const { g, list } of accepted()) {
    const measured = measure(g, toEnds(list, g.width));
    for (const Z of [detail(g), overview(g, measured.leaf1 - measured.leaf0 + 1)]) {
      const ways = lanes(measured, Z);
      assert.equal(ways.arcs.length, measured.floats.filter((F) => F.turns).length);
      for (const A of ways.arcs) {
        assert.equal(A.i1 - A.i0, A.F.turns, 'an arc crosses as many leaves as its float has turns');
        assert(A.bundle ? A.lane === Z.most : A.lane < Z.most, 'lane');
        for (const B of ways.arcs) if (A !== B && !A.bundle && A.lane === B.lane) assert(A.x1 <= B.x0 || B.x1 <= A.x0, `${A.F.id} and ${B.F.id} share lane ${A.lane}`);
        arcs++;
      }
    }
  }
  assert(arcs > 1000, `${arcs} arcs`);
  t.diagnostic(`${arcs} floats that wait: no two in one lane at once`);
});

test('the dots that are drawn are X', async (t) => {
  let turns = 0, lists = 0;
  for await (const { g, list, mark } of accepted()) {
    const measured = measure(g, toEnds(list, g.width)), Z = detail(g), ways = lanes(measured, Z);
    assert.equal(dots(g, measured, ways, Z), mark.x);
    turns += mark.x;
    lists++;
  }
  assert(turns > 1000, `${turns} turns`);
  t.diagnostic(`${turns} dots drawn for ${turns} turns of ${lists} accepted lists`);
});
