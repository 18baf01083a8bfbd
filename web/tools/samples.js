// The samples that go inside the page: galleys of the project with their lists, a class for two of them, and a book.
// A class is drawn from a seed: accepted lists with more turns than need be, made by ending pages elsewhere and making the rest best, and
// lists with a mistake.
import fs from 'node:fs';
import path from 'node:path';
import { Engine } from '../engine/engine.js';
import { looksPacked, pack } from '../galley/galley.js';

const REAL = [
  ['memman-p211-tables', 'a chapter of a manual, with tables: 37 pages, and a class of 12 lists', 9, 3],
  ['mpman-p003', 'a whole manual: 73 pages, above the 64 of the engine’s desk', 2, 0],
  ['memdesign-p049', '30 pages of a book on design', 2, 0],
  ['handbook-p047', '22 pages of a handbook', 2, 0],
  ['gretl-p046', '11 pages with graphs, and a class of 20 lists', 14, 6],
  ['gretl-p441', '4 pages, small enough to follow by hand', 1, 1],
];
const SMALL = [
  ['tables', 'tables', 'figures and tables, single-sided, 4 pages'],
  ['left-hand', 'left', 'a chapter that opens on a left-hand page'],
  ['kept', 'kept', 'a drawing kept with its legend'],
  ['full-close', 'close', 'a chapter that may not close on two lines'],
  ['white-space', 'white', 'equal turns, other white space'],
];
const MOST_MOVED = 50;                            // lines that may take the room of a float
const BOOKS = [['mpman', 'a book: a manual and its appendix of tables, which has no pagination by itself', ['mpman-p003', 'mpman-p081']]];

/** Numbers from a seed, the same everywhere: n gives one of 0 to n - 1. @param {number} seed */
function drawn(seed) {
  let x = seed;
  return (n) => { x = (x * 1103515245 + 12345) % 2147483648; return Math.floor(x / 2147483648 * n); };
}

/** A galley of the project, packed. @param {string} file */
function galleyOf(file) {
  const raw = fs.readFileSync(file);
  if (looksPacked(raw)) return new Uint8Array(raw);
  const packed = pack(raw.toString());
  if (!packed.ok) throw new Error(`${file}: ${packed.why}`);
  return packed.bytes;
}

/** A list with one page end moved so that a float goes to the next page: accepted, with more turns; none where there is no such end. */
function moved(engine, bytes, width, from) {
  for (let q = from.p - 1; q > 0; q--) {
    for (let more = 0; more < MOST_MOVED * (width - 1); more++) {
      const list = from.list.slice(), at = (q - 1) * width;
      list[at] += Math.floor(more / (width - 1));             // lines fill the room of the float
      list[at + 1 + more % (width - 1)] -= 1;
      const mark = engine.mark(bytes, list);
      if (mark.ok && mark.t > from.t) return { ...mark, list };
    }
  }
  return null;
}

/** An accepted list with up to `more` turns above the best: some pages end elsewhere, and the rest is made best after them. */
function dearer(engine, bytes, width, best, more, random) {
  let made = best;
  for (let q = 1, tries = 0; q < made.p && tries < 40; q++) {
    if (random(5) > 2) continue;
    tries++;
    const opening = made.list.slice(0, q * width), last = (q - 1) * width;
    opening[last] -= random(7) - 2;
    if (random(3) === 0) opening[last + 1 + random(width - 1)] -= 1;
    const other = engine.makeAfter(bytes, opening);
    if (other.ok && other.t - best.t <= more) made = other;
  }
  return made;
}

/** A list that is refused: an end beyond its page, a figure or table too soon, pages left out at the close. */
function mistaken(engine, bytes, width, best, kind, random) {
  for (let tries = 0; tries < 400; tries++) {
    const list = best.list.slice(), at = random(best.p - 1) * width;
    if (kind % 3 === 0) list[at] += 3 + random(6);
    if (kind % 3 === 1) list[at + 1 + random(width - 1)] += 1;
    const handed = kind % 3 === 2 ? list.slice(0, list.length - width) : list;
    if (!engine.mark(bytes, handed).ok) return handed;
  }
  throw new Error('no mistake could be drawn');
}

/** A list as `make` prints it, or plain. @param {ArrayLike<number>} list @param {number} width */
function plain(list, width) {
  let text = '';
  for (let k = 0; k < list.length; k += width) text += `${Array.from(list).slice(k, k + width).join(' ')}\n`;
  return text;
}

/** The lists of a class: the first has an end that would gain a turn, where there is one. @returns {{name: string, text: string}[]} */
function classOf(engine, bytes, accepted, refused) {
  const best = engine.make(bytes), width = engine.width(bytes), random = drawn(7), seen = new Set([best.list.join()]), lists = [];
  const add = (made) => {
    if (!made || seen.has(made.list.join())) return;
    seen.add(made.list.join());
    lists.push(made);
  };
  add(moved(engine, bytes, width, best));
  for (let tries = 0; lists.length < accepted && tries < 40 * accepted; tries++) {
    const made = dearer(engine, bytes, width, best, 1 + lists.length, random);
    if (tries < 20 * accepted && made.t === best.t) continue;  // as few turns as the engine have few of a class
    add(moved(engine, bytes, width, made));
    if (lists.length < accepted) add(made);
  }
  const texts = lists.map((made) => plain(made.list, width));
  for (let kind = 0; kind < refused; kind++) texts.splice(1 + random(texts.length), 0, plain(mistaken(engine, bytes, width, best, kind, random), width));
  return texts.map((text, k) => ({ name: `list-${String(k + 1).padStart(2, '0')}`, text }));
}

const base64 = (bytes) => Buffer.from(bytes).toString('base64');

/** @param {Uint8Array} wasm @param {string} folder the project's samples */
export function gather(wasm, folder) {
  const engine = new Engine(wasm), real = (name, kind) => path.join(folder, 'real', `${name}.${kind}`), out = [];
  for (const [name, about, accepted, refused] of REAL) {
    const bytes = galleyOf(real(name, 'galley'));
    const latex = { name: 'latex', text: fs.readFileSync(real(name, 'latex'), 'utf8') };
    out.push({ name, about, galley: base64(bytes), lists: [...classOf(engine, bytes, accepted, refused), latex] });
  }
  for (const [name, prefix, about] of SMALL) {
    const names = fs.readdirSync(path.join(folder, 'lists')).filter((file) => file.startsWith(`${prefix}-`));
    names.sort((a, b) => Number(b.includes('too-long')) - Number(a.includes('too-long')) || (a < b ? -1 : 1));
    const lists = names.map((file) => ({ name: file.replace('.list', ''), text: fs.readFileSync(path.join(folder, 'lists', file), 'utf8') }));
    out.push({ name, about, galley: base64(galleyOf(path.join(folder, `${name}.txt`))), lists });
  }
  for (const [name, about, chapters] of BOOKS) out.push({ name, about, galleys: chapters.map((one) => ({ name: one, galley: base64(galleyOf(real(one, 'galley'))) })), lists: [] });
  return out;
}
