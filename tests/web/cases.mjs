// The calls that answers.py wrote, and the engine in WebAssembly that they are made of.
import { createHash } from 'node:crypto';
import fs from 'node:fs';
import path from 'node:path';
import readline from 'node:readline';
import { fileURLToPath } from 'node:url';
import { Engine } from '../../web/engine/engine.js';
import { looksPacked, pack, read } from '../../web/galley/galley.js';
import { readList } from '../../web/galley/list.js';

export const ROOT = path.resolve(path.dirname(fileURLToPath(import.meta.url)), '..', '..');
export const WASM = fs.readFileSync(path.join(ROOT, 'target', 'web', 'engine.wasm'));
export const GUARD = 16;

/** The lines of the file that BARLEYCHIME_CASES names, one after another. */
export async function* cases() {
  const file = process.env.BARLEYCHIME_CASES;
  if (!file) throw new Error('BARLEYCHIME_CASES names no file of cases: tests/web/node writes one and says so');
  for await (const line of readline.createInterface({ input: fs.createReadStream(file), crlfDelay: Infinity })) yield JSON.parse(line);
}

const sha256 = (data) => createHash('sha256').update(data);

/** Bytes that hang on a seed, as answers.py has them. @param {number} seed @param {number} length */
export function noise(seed, length) {
  const block = sha256(String(seed)).digest(), out = Buffer.alloc(length);
  for (let k = 0; k < length; k += block.length) block.copy(out, k);
  return out;
}

/** Bytes as answers.py tells them. @param {Buffer} data */
export const told = (data) => (data.length <= 128 ? data.toString('hex') : sha256(data).digest('hex'));

/** The bytes that a call was given: those of an area without its guard. @param {{bytes: string}} area */
export const given = (area) => new Uint8Array(Buffer.from(area.bytes, 'hex').subarray(0, -GUARD));

/** Bytes as words. @param {Uint8Array} bytes */
export const words = (bytes) => new Uint32Array(Uint8Array.from(bytes).buffer);

/**
 * Every accepted list of the cases and of the samples, each with its galley as it is read and its numbers.
 * @returns {AsyncGenerator<{bytes: Uint8Array, g: import('../../web/galley/galley.js').Galley, list: Uint32Array, mark: {p: number, x: number, y: number, t: number, w: number}}>}
 */
export async function* accepted() {
  for await (const [name, args, returned, after] of cases()) {
    if (name !== 'mark' || returned) continue;
    const bytes = given(args[0]), [, , p, x, y, t, , , w] = words(Buffer.from(after[2], 'hex').subarray(0, 36));
    yield { bytes, g: read(bytes), list: words(given(args[2])), mark: { p, x, y, t, w } };
  }
  yield* samples();
}

/** The samples' lists that the engine accepts, and its own. */
function* samples() {
  const engine = new Engine(WASM), folder = path.join(ROOT, 'samples'), files = [...fs.readdirSync(folder).filter((name) => name.endsWith('.txt')), ...fs.readdirSync(path.join(folder, 'real')).filter((name) => name.endsWith('.galley')).map((name) => `real/${name}`)];
  for (const file of files) {
    const raw = fs.readFileSync(path.join(folder, file)), bytes = looksPacked(raw) ? new Uint8Array(raw) : pack(raw.toString()).bytes, g = read(bytes), made = engine.make(bytes);
    const prefix = { 'case-a': 'a', 'case-c': 'c', 'left-hand': 'left', 'full-close': 'close', 'white-space': 'white' }[path.parse(file).name] ?? path.parse(file).name;
    const near = fs.readdirSync(path.join(folder, 'lists')).filter((name) => name.startsWith(`${prefix}-`)).map((name) => path.join(folder, 'lists', name));
    const latex = path.join(folder, file.replace('.galley', '.latex'));
    const lists = [...near, ...(file.endsWith('.galley') ? [latex] : [])].map((name) => readList(fs.readFileSync(name, 'utf8'), g.width)).filter((got) => got.ok).map((got) => got.words);
    for (const list of [...(made.ok ? [made.list] : []), ...lists]) {
      const mark = engine.mark(bytes, list);
      if (mark.ok) yield { bytes, g, list, mark };
    }
  }
}
