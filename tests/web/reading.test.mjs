// Galleys and lists, read and written: as bytes, as text, as what `make` prints, plain and as CSV.
import assert from 'node:assert/strict';
import fs from 'node:fs';
import path from 'node:path';
import test from 'node:test';
import { looksPacked, pack, read, unpack } from '../../web/galley/galley.js';
import { csvText, madeText, plainText, readList, toEnds, toWords } from '../../web/galley/list.js';
import { accepted, cases, given, ROOT } from './cases.mjs';

const SAMPLES = path.join(ROOT, 'samples');

test('a galley as text and back is the same bytes', async (t) => {
  let count = 0;
  for await (const [name, args, returned] of cases()) {
    if (name !== 'forecast' || returned) continue;
    const bytes = given(args[0]), text = unpack(bytes), again = pack(text);
    assert(again.ok, text);
    assert.deepEqual(again.bytes, bytes);
    assert(looksPacked(bytes) && !looksPacked(new TextEncoder().encode(text)));
    count++;
  }
  assert(count > 4000, `${count} galleys`);
  t.diagnostic(`${count} galleys as text and back`);
});

test('text with comments, blank lines and other line ends reads alike', () => {
  for (const file of fs.readdirSync(SAMPLES).filter((name) => name.endsWith('.txt'))) {
    const text = fs.readFileSync(path.join(SAMPLES, file), 'utf8'), { bytes } = pack(text);
    assert.deepEqual(pack(text.replace(/\n/g, '\r\n')).bytes, bytes, file);
    assert.deepEqual(pack(`# first\n\n${text.replace(/\n/g, '  # a remark\n\n')}`).bytes, bytes, file);
    assert.equal(unpack(bytes), text.replace(/#.*/g, '').split('\n').map((line) => line.trim().replace(/\s+/g, ' ')).filter(Boolean).map((line) => `${line}\n`).join(''), file);
  }
});

test('what is no galley is refused with its line', () => {
  for (const [text, place] of [['GS 1 2 3\n', 1], ['# x\nXX 1\n', 2], ['TL 1 2 3 4.5\n', 1], ['TL 1 2 3 -1\n', 1], ['TL 1 2 3 4294967296\n', 1], ['\n\nTL 1 2 3 1e3\n', 3], ['TL 1 2 3 0x1\n', 1]]) {
    const got = pack(text);
    assert.equal(got.ok, false, text);
    assert.match(got.why, new RegExp(`ine ${place}\\b`), text);
  }
});

test('what is read of a galley is what its bytes say', async () => {
  let tables = 0;
  for await (const [name, args, returned] of cases()) {
    if (name !== 'forecast' || returned) continue;
    const bytes = given(args[0]), g = read(bytes), rows = unpack(bytes).trim().split('\n').map((row) => row.split(' '));
    const spec = rows[0].slice(1).map(Number), of = (...marks) => rows.filter(([mark]) => marks.includes(mark));
    assert.deepEqual([g.htMin, g.htMax, g.sMin, g.sMax, g.sides, g.alpha, g.beta, g.lastMin], [...spec.slice(0, 7), spec[7] ?? null]);
    assert.equal(g.folio, Number(of('FO')[0]?.[1] ?? 1));
    assert.deepEqual(g.count, [of('TL').length, of('FG', 'FK').length, of('TB').length]);
    assert.equal(g.width, g.count[2] ? 3 : 2);
    of('FG', 'FK').forEach(([mark, ...fields], k) => assert.deepEqual([g.streams[1][k].h, g.streams[1][k].cite, g.streams[1][k].end], [Number(fields[0]), Number(fields[3]), mark === 'FG']));
    tables += g.count[2];
  }
  assert(tables > 500, `${tables} tables`);
});

test('a list that is written is read again, in all its forms', async (t) => {
  let count = 0;
  for await (const { g, list, mark } of accepted()) {
    const ends = toEnds(list, g.width);
    assert.deepEqual(toWords(ends, g.width), list);
    for (const text of [madeText(mark, ends, g.width), plainText(ends, g.width), csvText(ends, g.width), plainText(ends, g.width).replace(/\n/g, '\r\n'), `# a remark\n${madeText(mark, ends, g.width)}`]) {
      assert.deepEqual(readList(text, g.width).words, list, text);
    }
    count++;
  }
  assert(count > 3000, `${count} lists`);
  t.diagnostic(`${count} accepted lists written in five forms and read again`);
});

test('what is no list is refused in words', () => {
  for (const text of ['', '# nothing\n', 'R 11 0\n', '1 2 3 x\n', '1 -2\n', '1 2\n3\n', '99999999999 1\n', '\u0000\u0001']) {
    const got = readList(text, 2);
    assert.equal(got.ok, false, JSON.stringify(text));
    assert.equal(got.number, 12);
    assert(got.why.length > 8, text);
  }
});

test('the lists of the project read as the samples’ README says', () => {
  for (const file of fs.readdirSync(path.join(SAMPLES, 'lists'))) {
    const text = fs.readFileSync(path.join(SAMPLES, 'lists', file), 'utf8'), width = file.startsWith('tables') ? 3 : 2;
    const numbers = text.split('\n').map((line) => line.replace(/#.*/, '').trim()).filter(Boolean);
    assert(readList(text, width).ok, `${file}: ${numbers[0]}`);
  }
});

