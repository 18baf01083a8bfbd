// The proved library as a WebAssembly module. tools/archive compiles the proved library for x86-64, and keeps the LLVM module that the
// toolchain's clang compiled. That module gets WebAssembly's layout in place of x86-64's, two lines of its text, and is compiled and linked by the
// same clang.
import { execFileSync, spawnSync } from 'node:child_process';
import { createHash } from 'node:crypto';
import fs from 'node:fs';
import os from 'node:os';
import path from 'node:path';

const CRATE = 'barleychime';
const STACK_BYTES = 524288;                       // twice what a book takes (include/barleychime.h)
const SAFE = ['-trap-unreachable', '-disable-machine-licm', '-disable-postra-machine-licm', '-sink-common-insts=false'];   // as the toolchain has its clang compile proved code

/** What is missing of the toolchain is an error that says so. @returns {{kit: string, clang: string}} */
export function toolchain() {
  const told = spawnSync('rt', ['doc'], { encoding: 'utf8' });
  if (told.error) throw new Error('there is no rt on PATH. The Rattle toolchain proves and compiles the engine: install it, and put its bin on PATH.');
  if (told.status !== 0) throw new Error(`rt doc ended with status ${told.status}: ${told.stderr.trim()}`);
  const kit = path.dirname(told.stdout.trim()), clang = path.join(kit, 'toolchain', 'bin', 'clang');
  if (!fs.existsSync(clang)) throw new Error(`the Rattle toolchain at ${kit} has no clang, and so no way to WebAssembly.`);
  return { kit, clang };
}

/** The LLVM module of the proved library as it stands, compiled where something changed. @param {string} root @returns {string} its file */
export function proved(root) {
  const ran = spawnSync(path.join(root, 'tools', 'archive'), [CRATE], { encoding: 'utf8' });
  if (ran.status !== 0) throw new Error(`tools/archive ${CRATE} ended with status ${ran.status}:\n${ran.stdout}${ran.stderr}`);
  return path.join(root, 'target', 'staticlib', `${CRATE}.bc`);
}

/** What the WebAssembly is made of: the library's module, the toolchain and this file. @param {string} module @param {string} kit */
export function key(module, kit) {
  const sum = createHash('sha256');
  for (const file of [module, path.join(kit, 'KIT-ID'), new URL(import.meta.url).pathname]) sum.update(fs.readFileSync(file));
  return sum.digest('hex');
}

/** All files below a folder, in one order. @param {string} folder @returns {string[]} */
export function files(folder) {
  const out = [];
  for (const entry of fs.readdirSync(folder, { withFileTypes: true }).sort((a, b) => (a.name < b.name ? -1 : 1))) {
    const at = path.join(folder, entry.name);
    if (entry.isDirectory()) out.push(...files(at)); else out.push(at);
  }
  return out;
}

/** Compiles the library's module to WebAssembly. @param {string} module @param {string} out */
export function compile(module, out) {
  const { clang } = toolchain(), temp = fs.mkdtempSync(path.join(os.tmpdir(), 'barleychime-web-'));
  const at = (name) => path.join(temp, name);
  try {
    execFileSync(clang, ['--target=x86_64-unknown-linux-gnu', '-x', 'ir', module, '-S', '-emit-llvm', '-Xclang', '-disable-llvm-passes', '-O3', '-o', at('kept.ll')]);
    const text = fs.readFileSync(at('kept.ll'), 'utf8').replace(/^target datalayout.*\n/m, '')
      .replace(/^target triple.*$/m, 'target triple = "wasm32-unknown-unknown"').replace(/"target-cpu"="[^"]*"/g, '');
    fs.writeFileSync(at('wasm.ll'), text);
    execFileSync(clang, ['--target=wasm32-unknown-unknown', '-O3', '-mbulk-memory', ...SAFE.flatMap((each) => ['-mllvm', each]), '-c', '-x', 'ir', at('wasm.ll'), '-o', at('wasm.o')]);
    fs.symlinkSync(clang, at('wasm-ld'));
    execFileSync(at('wasm-ld'), ['--no-entry', '--export-dynamic', '-z', `stack-size=${STACK_BYTES}`, '--export=__heap_base', at('wasm.o'), '-o', out]);
  } finally {
    fs.rmSync(temp, { recursive: true, force: true });
  }
}
