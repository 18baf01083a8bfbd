// target/web/engine.wasm and target/web/barleychime.html, each built only where what it is made of has changed.
import { createHash } from 'node:crypto';
import fs from 'node:fs';
import path from 'node:path';
import { fileURLToPath } from 'node:url';
import zlib from 'node:zlib';
import { bundle } from './bundle.js';
import { compile, files, key, proved, toolchain } from './engine.js';

const ROOT = path.resolve(path.dirname(fileURLToPath(import.meta.url)), '..', '..');
const WEB = path.join(ROOT, 'web'), TARGET = path.join(ROOT, 'target', 'web'), SAMPLES = path.join(ROOT, 'samples');
const WASM = path.join(TARGET, 'engine.wasm'), PAGE = path.join(TARGET, 'barleychime.html');
const read = (...at) => fs.readFileSync(path.join(...at), 'utf8');
const sha256 = (data) => createHash('sha256').update(data);

/** Whether a file was built from what has this key; `build` is called where it was not. @param {string} file @param {string} made @param {() => void} build */
function unlessBuilt(file, made, build) {
  const note = `${file}.key`;
  if (fs.existsSync(file) && fs.existsSync(note) && fs.readFileSync(note, 'utf8') === made) return false;
  fs.rmSync(note, { force: true });
  build();
  fs.writeFileSync(note, made);
  return true;
}

/** The version that include/barleychime.h states. */
function version() {
  const told = read(ROOT, 'include', 'barleychime.h').match(/BARLEYCHIME_VERSION_STRING\s+"([^"]+)"/);
  return told ? told[1] : '0.2.0';
}

/** All of web/style.css, or of web/style/ in the order of the names. */
function style() {
  const folder = path.join(WEB, 'style');
  return fs.existsSync(folder) ? files(folder).map((file) => fs.readFileSync(file, 'utf8')).join('') : read(WEB, 'style.css');
}

/** The policy allows this script and this style by their sums, WebAssembly, and a worker that is the same script; no network at all. */
function policy(script, styled) {
  const sum = (text) => `'sha256-${sha256(text).digest('base64')}'`;
  return `default-src 'none'; script-src ${sum(script)} 'wasm-unsafe-eval'; style-src ${sum(styled)}; worker-src blob:; base-uri 'none'; form-action 'none'`;
}

/** The page, whole. @param {any[]} samples */
function page(samples) {
  const { code, main } = bundle(WEB, 'main.js');
  const script = `'use strict';\n(() => {\n${code}\n${main}.start(typeof document === 'undefined' ? '' : document.currentScript.textContent);\n})();`;
  const styled = style(), wasm = fs.readFileSync(WASM);
  if (/<\/script|<!--/i.test(script)) throw new Error('a module has `</script` or `<!--` in it, which would end the script inside the page: write it in two parts.');
  const parts = {
    POLICY: policy(script, styled), STYLE: styled, SCRIPT: script, WASM: wasm.toString('base64'), DIGEST: sha256(wasm).digest('hex'), VERSION: version(),
    HANDED: 'null',                               // `barleychime show` puts a galley and lists here
    SAMPLES: zlib.gzipSync(JSON.stringify(samples), { level: 9 }).toString('base64'),
  };
  return read(WEB, 'page.html').replace(/@([A-Z]+)@/g, (all, name) => parts[name] ?? all);
}

async function build() {
  fs.mkdirSync(TARGET, { recursive: true });
  const { kit } = toolchain(), module = proved(ROOT);
  if (unlessBuilt(WASM, key(module, kit), () => compile(module, WASM))) console.log(`target/web/engine.wasm: ${fs.statSync(WASM).size} bytes`);
  const sum = sha256('');
  for (const file of [WASM, path.join(ROOT, 'include', 'barleychime.h'), ...files(WEB), ...files(SAMPLES)]) { sum.update(`${path.relative(ROOT, file)}\0`); sum.update(fs.readFileSync(file)); }
  const { gather } = await import('./samples.js');
  const built = unlessBuilt(PAGE, sum.digest('hex'), () => fs.writeFileSync(PAGE, page(gather(fs.readFileSync(WASM), SAMPLES))));
  if (built) console.log(`target/web/barleychime.html: ${fs.statSync(PAGE).size} bytes`);
}

build().catch((error) => { console.error(`web/build: ${error.message}`); process.exitCode = 2; });
