// The engine in WebAssembly answers as the native archive: every call of include/barleychime.h, on the areas that answers.py lent, byte for byte.
import assert from 'node:assert/strict';
import fs from 'node:fs';
import path from 'node:path';
import test from 'node:test';
import { cases, noise, ROOT, told, WASM } from './cases.mjs';

const LEAST_GALLEYS = 5000;
const engine = new WebAssembly.Instance(new WebAssembly.Module(WASM)).exports;

/** The functions that the header declares, without those that it defines itself. */
function declared() {
  const header = fs.readFileSync(path.join(ROOT, 'include', 'barleychime.h'), 'utf8').replace(/\/\*[\s\S]*?\*\//g, '');
  return [...header.matchAll(/^(?!static)\w[\w ]*\bbarleychime_(\w+)\s*\(/gm)].map((found) => found[1]);
}

/** Areas one after another in the module's memory. */
class Lent {
  constructor() { this.at = engine.__heap_base.value; this.areas = []; }

  /** @param {Buffer} bytes @returns {number} where it is */
  lend(bytes) {
    const here = (this.at + 15) & ~15;
    this.at = here + bytes.length;
    const short = this.at - engine.memory.buffer.byteLength;
    if (short > 0) engine.memory.grow(Math.ceil(short / 65536));
    new Uint8Array(engine.memory.buffer).set(bytes, here);
    this.areas.push({ here, before: bytes });
    return here;
  }

  /** What each area holds. */
  after() { return this.areas.map(({ here, before }) => Buffer.from(engine.memory.buffer, here, before.length)); }
}

let desk = Buffer.alloc(0);

/** Makes a call; what is returned, and what every area holds, as answers.py tells it. */
function call(name, args) {
  const lent = new Lent();
  const passed = args.map((arg) => {
    if (typeof arg === 'number') return arg;
    if (arg === 'desk') return lent.lend(desk);
    if ('length' in arg) return BigInt(arg.length);
    return lent.lend('bytes' in arg ? Buffer.from(arg.bytes, 'hex') : noise(...arg.noise));
  });
  const returned = engine[`barleychime_${name}`](...passed) >>> 0, after = lent.after();
  const seen = after.map((bytes, k) => (bytes.equals(lent.areas[k].before) ? 0 : told(bytes)));
  const areas = args.filter((arg) => arg === 'desk' || (typeof arg === 'object' && !('length' in arg)));
  if (areas.includes('desk')) desk = Buffer.from(after[areas.indexOf('desk')]);
  return [returned, seen];
}

test('the module exports what the header declares, and asks for nothing', () => {
  const names = declared();
  assert(names.length >= 14, `the header declares ${names.length} functions`);
  for (const name of names) assert.equal(typeof engine[`barleychime_${name}`], 'function', name);
  assert.deepEqual(WebAssembly.Module.imports(new WebAssembly.Module(WASM)), []);
});

test('every call answers as the archive does', async (t) => {
  const made = new Map();
  let galleys = 0;
  for await (const [name, args, returned, after] of cases()) {
    if (name === 'desk') { desk = Buffer.from(args, 'hex'); continue; }
    if (name === 'galleys') { galleys = args; continue; }
    made.set(name, (made.get(name) ?? 0) + 1);
    assert.deepEqual(call(name, args), [returned, after], `${name} ${JSON.stringify(args).slice(0, 600)}`);
  }
  assert(galleys >= LEAST_GALLEYS, `${galleys} galleys`);
  assert.deepEqual(declared().filter((name) => !made.has(name)), [], 'calls of the header without a case');
  t.diagnostic(`${galleys} galleys; ${[...made].map(([name, count]) => `${name} ${count}`).join(', ')}: as the archive`);
});
