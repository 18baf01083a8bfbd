// web/engine over the calls that answers.py recorded: what JavaScript gets is what the native archive wrote.
import assert from 'node:assert/strict';
import test from 'node:test';
import { Desk } from '../../web/engine/desk.js';
import { Engine } from '../../web/engine/engine.js';
import { cases, given, WASM, words } from './cases.mjs';

const engine = new Engine(WASM);
const answer = (hex) => words(new Uint8Array(Buffer.from(hex, 'hex')).slice(0, 36));
const wide = (hex, count) => [...new BigUint64Array(new Uint8Array(Buffer.from(hex, 'hex')).slice(0, 8 * count).buffer)];

/** An answer as web/engine has it. @param {Uint32Array} a */
function marked(a) {
  if (a[0]) return { ok: false, number: a[0], place: a[1] };
  return { ok: true, number: 0, place: 0, p: a[2], x: a[3], y: a[4], t: a[5], w: a[8], weighed: BigInt(a[6]) | BigInt(a[7]) << 32n };
}

/** Without what a value has beside the numbers: lists, names, words. */
function plain(got) {
  const { ok, number, place } = got;
  return ok ? { ok, number, place, p: got.p, x: got.x, y: got.y, t: got.t, w: got.w, weighed: got.weighed } : { ok, number, place };
}

/** The bytes of lists and lengths are words. */
const listed = (area) => words(given(area));
const last = (after) => after[after.length - 1];

const CALLS = {
  forecast([galley], [, hex]) {
    const a = words(new Uint8Array(Buffer.from(hex, 'hex')).slice(0, 24)), got = engine.forecast(given(galley));
    assert.deepEqual([got.number, got.place], [a[0], a[1]]);
    if (got.ok) assert.deepEqual([got.work, got.list, got.ceiling], [a[2], a[3], BigInt(a[4]) | BigInt(a[5]) << 32n]);
  },
  make([galley], after) {
    const due = marked(answer(last(after)));
    if (due.number === 9 || due.number === 10) return false;          // web/engine lends enough
    const got = engine.make(given(galley));
    assert.deepEqual(plain(got), due);
    if (got.ok) assert.deepEqual(plain(engine.mark(given(galley), got.list)), { ...due, weighed: 0n });
  },
  make_after([galley, , opening], after) {
    const got = engine.makeAfter(given(galley), listed(opening)), due = marked(answer(last(after)));
    assert.deepEqual(plain(got), due);
    if (got.ok) assert.deepEqual([...got.list.slice(0, listed(opening).length)], [...listed(opening)]);
  },
  mark([galley, , list], after) { assert.deepEqual(plain(engine.mark(given(galley), listed(list))), marked(answer(last(after)))); },
  book([galleys, , lengths], after) {
    const sizes = [...listed(lengths)], bytes = given(galleys), due = wide(last(after), 7);
    if (sizes.reduce((a, b) => a + b, 0) !== bytes.length || due[0] === 9n || due[0] === 10n) return false;   // chapters that web/engine would not lend so
    const chapters = sizes.map((size, k) => { const at = sizes.slice(0, k).reduce((a, b) => a + b, 0); return bytes.slice(at, at + size); });
    const got = engine.book(chapters);
    assert.deepEqual([BigInt(got.number ?? 0), BigInt(got.place ?? 0)], due.slice(0, 2));
    if (!got.ok) return true;
    assert.deepEqual([got.p, got.x, got.y, got.t, got.w], due.slice(2));
    assert.equal(got.lists.length, chapters.length);
    assert.equal(got.lists.reduce((sum, list, k) => sum + list.length / engine.width(chapters[k]), 0), Number(got.p));
  },
  report([papers], after) {
    const w = listed(papers), all = [];
    for (let k = 0; k < w.length; k += 5) all.push({ p: w[k], x: w[k + 1], y: w[k + 2], t: w[k + 3], engine: w[k + 4] });
    const got = engine.report(all);
    const due = wide(last(after), 11);
    if (!got.ok) { assert.deepEqual([BigInt(got.number), BigInt(got.place)], due.slice(0, 2)); return; }
    assert.deepEqual([0n, 0n, got.papers, got.p, got.x, got.y, got.t, got.least, got.greatest, got.excess, got.count], due);
  },
  section([size], [numbers, hex]) {
    const got = engine.section(size), a = words(new Uint8Array(Buffer.from(hex, 'hex')).slice(0, 8));
    assert.deepEqual([got.ok ? 0 : got.number, got.ok ? 0 : got.place], [...a]);
    if (got.ok) assert.deepEqual([...got.pages].sort((x, y) => x - y), Array.from({ length: size }, (_, k) => k + 1));
    else assert.equal(numbers, 0);
  },
  version() { assert.equal(typeof engine.version(), 'number'); },
};

test('every call of web/engine answers as the archive', async (t) => {
  const done = new Map();
  for await (const [name, args, returned, after] of cases()) {
    if (!CALLS[name] || returned === undefined || (name === 'version' && !engine.version)) continue;
    let called;
    try { called = CALLS[name](args, after); } catch (error) { error.message = `${name} ${JSON.stringify(args).slice(0, 500)}: ${error.message}`; throw error; }
    if (called !== false) done.set(name, (done.get(name) ?? 0) + 1);
  }
  for (const name of ['forecast', 'make', 'make_after', 'mark', 'book', 'report', 'section']) assert(done.get(name) >= 50, `${name}: ${done.get(name)} cases`);
  t.diagnostic(`web/engine: ${[...done].map(([name, count]) => `${name} ${count}`).join(', ')}`);
});

/** A call at a desk of web/engine; undefined where the call has a galley or a name that web/engine does not lend. */
function atDesk(desk, name, args) {
  if (name === 'desk_commit') return desk.commit();
  if (name === 'desk_ask') return desk.ask(args[2], listed(args[3]));
  const bytes = given(args[0]), text = new TextDecoder().decode(bytes);
  if (Buffer.compare(Buffer.from(text), Buffer.from(bytes))) return undefined;
  return desk[name.replace('desk_', '')](text);
}

test('a sitting at web/engine’s desk answers as the archive’s', async (t) => {
  let desk = null, calls = 0, sittings = 0, fresh = false, galley = null;
  for await (const [name, args, returned, after] of cases()) {
    if (name === 'desk') { if (desk) desk.close(); desk = null; fresh = /^0+e+$/.test(args); continue; }
    if (!name.startsWith('desk_')) continue;
    if (name === 'desk_open') {
      if (desk) desk.close();
      galley = given(args[0]);
      const got = engine.openDesk(galley, listed(args[2]));
      assert.equal(got instanceof Desk ? 0 : got.number, returned);
      desk = got instanceof Desk && fresh ? got : (got instanceof Desk && got.close(), null);
      fresh = false;
      if (desk) sittings++;
      continue;
    }
    if (!desk) continue;
    if (name === 'desk_list') { assert.equal(desk.list().length / desk.words[1], answer(last(after))[2]); calls++; continue; }
    if (name === 'desk_ask') { desk.bytes = given(args[0]); }
    const got = atDesk(desk, name, args);
    if (got === undefined) { desk.close(); desk = null; continue; }
    assert.deepEqual(plain(got), marked(answer(last(after))), `${name} ${JSON.stringify(args).slice(0, 300)}`);
    calls++;
  }
  assert(sittings >= 20 && calls >= 400, `${sittings} sittings, ${calls} calls`);
  t.diagnostic(`web/engine: ${sittings} sittings at a desk, ${calls} calls`);
});

