// What the page says of a list and of refusals is what the command says: tests/explanations/cases.json holds both, and the table of refusals is the library's.
import assert from 'node:assert/strict';
import { execFileSync } from 'node:child_process';
import fs from 'node:fs';
import path from 'node:path';
import test from 'node:test';
import { Engine } from '../../web/engine/engine.js';
import { brokenLength } from '../../web/galley/explain.js';
import { pack, read } from '../../web/galley/galley.js';
import { lostForGood } from '../../web/galley/lost.js';
import { measure } from '../../web/galley/measure.js';
import { REFUSALS } from '../../web/galley/refusals.js';
import { ROOT, WASM } from './cases.mjs';

const { cases } = JSON.parse(fs.readFileSync(path.join(ROOT, 'tests', 'explanations', 'cases.json'), 'utf8'));
const engine = new Engine(WASM);

/** A case as the page sees it: galley, ends of three counts, words. */
function seen({ galley, list }) {
  const { bytes } = pack(galley), g = read(bytes);
  return { bytes, g, ends: list.map((end) => [end[0], end[1], end[2] ?? 0]), words: list.flat() };
}

test('every rule that every page breaks, with its numbers', (t) => {
  let told = 0;
  for (const one of cases) {
    const { bytes, g, ends, words } = seen(one), mark = engine.mark(bytes, words);
    assert.equal(mark.ok ? [mark.p, mark.x, mark.y, mark.t, mark.w].join(' ') : `R ${mark.number} ${mark.place}`, one.answer, one.name);
    const pages = measure(g, ends).pages.flatMap((page) => page.bad).map(({ page, rule, numbers }) => ({ page, rule, numbers }));
    const whole = mark.number === 12 ? [{ page: 0, rule: 12, numbers: [brokenLength(g, words.length)] }] : [];
    const due = mark.number === 12 ? one.broken.filter(({ rule }) => rule === 12) : one.broken;
    assert.deepEqual(mark.number === 12 ? whole : pages, due, one.name);
    told += due.length;
  }
  assert(told >= 40, `${told} broken rules`);
  t.diagnostic(`${told} broken rules of ${cases.length} lists in the command’s words`);
});

test('the page ends with which turns are lost for good', async (t) => {
  let told = 0;
  for (const one of cases) {
    const { bytes, g, ends, words } = seen(one);
    if (!engine.mark(bytes, words).ok) { assert.deepEqual(one.lost, [], one.name); continue; }
    const lost = await lostForGood(g, ends, async (q) => engine.makeAfter(bytes, words.slice(0, q * g.width)));
    assert.deepEqual(lost, one.lost, one.name);
    told += lost.length;
  }
  assert(told >= 10, `${told} page ends`);
  t.diagnostic(`${told} page ends that lose turns for good, in the command’s words`);
});

test('the table of refusals is the library’s', (t) => {
  const command = path.join(ROOT, 'host', 'command', 'target', 'release', 'barleychime');
  const told = JSON.parse(execFileSync(command, ['refusals', '--json'], { encoding: 'utf8' }));
  assert.equal(told.length, 33);
  const alike = ({ number, name, words, mender }) => ({ number, name, words, mender }), all = [...REFUSALS.values()];
  assert.deepEqual(all.map(alike), told.map(alike));
  const places = new Map(all.map(({ place }, k) => [told[k].place, place]));      // the page words a place itself: what the library calls alike is alike here
  assert.deepEqual(told.map(({ place }) => places.get(place)), all.map(({ place }) => place));
  t.diagnostic('33 refusals with name, words and mender as the library has them');
});
