// The page, or its worker: both are this script.
import { Engine } from './engine/engine.js';
import { App } from './parts/app.js';
import { byId } from './parts/dom.js';
import { fromBase64, samples } from './parts/files.js';
import { serve } from './worker.js';

/** @param {string} script its own text, from which the worker is started */
export async function start(script) {
  if (typeof document === 'undefined') {
    serve(globalThis, (wasm) => new Engine(wasm));
    return;
  }
  const wasm = fromBase64(byId('wasm').textContent), app = new App(await WebAssembly.compile(wasm), wasm.buffer, script);
  /** @type {any} */ (window).app = app;
  const handed = JSON.parse(byId('handed').textContent);
  if (handed) {
    app.sample(handed);
    app.keeper.restoreView();
  } else resume(app);
  requestAnimationFrame(() => requestAnimationFrame(() => { app.times.drawn = performance.now(); }));
  app.inside = await samples(byId('samples').textContent);
  if (app.tab === 'open') app.draw();
}

/** Takes up what was worked on last; what cannot be read is left.
 * @param {App} app */
function resume(app) {
  try {
    if (!app.keeper.restore()) app.go('open');
  } catch {
    app.clear();
    app.go('open');
    app.toast('What was kept could not be read.');
  }
}
