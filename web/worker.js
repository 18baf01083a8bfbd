// The worker: it has an engine and a memory of its own, and answers one request after another. Ending it stops whatever it makes.

/**
 * @typedef {import('./engine/engine.js').Engine} Engine
 * @typedef {{galley: Uint8Array, opening: ArrayLike<number>}} MakeRequest
 * @typedef {{book: Uint8Array[]}} BookRequest
 */

/** @param {any} scope the worker's own @param {(wasm: ArrayBuffer) => Engine} start */
export function serve(scope, start) {
  /** @type {Engine | null} */
  let engine = null;
  scope.onmessage = (event) => {
    const { wasm, book, galley, opening } = event.data;
    if (wasm) {
      engine = start(wasm);
      return;
    }
    const from = performance.now(), answer = book ? engine.book(book) : engine.makeAfter(galley, opening);
    scope.postMessage({ ...answer, ms: performance.now() - from });
  };
}
