// Making in a worker, one job at a time: what the hand waits for goes before what is only good to know.
import { impossible } from '../engine/engine.js';

/**
 * @typedef {import('../engine/engine.js').Made} Made
 * @typedef {import('../engine/engine.js').Refusal} Refusal
 * @typedef {{key: string, request: any, urgent: boolean, done: ((answer: any) => void)[]}} Job
 */

const MOST_KNOWN = 4000;

export class Maker {
  /** @param {() => Worker} start @param {ArrayBuffer} wasm */
  constructor(start, wasm) {
    this.start = start;
    this.wasm = wasm;
    this.reset(null);
  }

  /** Another galley: whatever runs is ended.
   * @param {Uint8Array | null} bytes */
  reset(bytes) {
    this.stop();
    this.bytes = bytes;
    /** @type {Map<string, any>} */ this.known = new Map();
    this.lastMs = 0;
  }

  /** Ends what runs and what waits; whoever waits is told. */
  stop() {
    this.worker?.terminate();
    this.worker = null;
    const ended = [...(this.running ? [this.running] : []), ...(this.jobs ?? [])];
    /** @type {Job[]} */ this.jobs = [];
    /** @type {Job | null} */ this.running = null;
    for (const job of ended) for (const done of job.done) done({ ...impossible('Making was stopped.'), stopped: true });
  }

  /**
   * The best list that begins with an opening.
   * @param {ArrayLike<number>} opening @param {boolean} [urgent]
   * @returns {Promise<(Made & {ms: number}) | Refusal>}
   */
  make(opening = [], urgent = true) {
    return this.ask(Array.prototype.join.call(opening, ' '), { galley: this.bytes, opening: Array.from(opening) }, urgent);
  }

  /**
   * Whether there is a pagination of other bytes.
   * @param {Uint8Array} galley @param {ArrayLike<number>} opening @returns {Promise<any>}
   */
  tryBytes(galley, opening) {
    return this.ask(`other ${galley.subarray(0, 40).join(' ')} ${Array.prototype.join.call(opening, ' ')}`,
      { galley, opening: Array.from(opening) }, false);
  }

  /** The best book.
   * @param {Uint8Array[]} galleys @returns {Promise<any>} */
  book(galleys) { return this.ask('book', { book: galleys }, true); }

  /** @param {string} key @param {any} request @param {boolean} urgent @returns {Promise<any>} */
  ask(key, request, urgent) {
    if (this.known.has(key)) return Promise.resolve(this.known.get(key));
    return new Promise((done) => {
      const same = [...this.jobs, ...(this.running ? [this.running] : [])].find((job) => job.key === key);
      if (same) {
        same.done.push(done);
        same.urgent ||= urgent;
        return;
      }
      this.jobs.push({ key, request, urgent, done: [done] });
      this.next();
    });
  }

  /** Takes back what nobody waits for any more. */
  forget() {
    const dropped = this.jobs.filter((job) => !job.urgent);
    this.jobs = this.jobs.filter((job) => job.urgent);
    for (const job of dropped) for (const done of job.done) done(impossible('It is not wanted any more.'));
  }

  /** The latest urgent job, else the first. */
  next() {
    if (this.running || !this.jobs.length) return;
    const urgent = this.jobs.map((job) => job.urgent).lastIndexOf(true);
    const [job] = this.jobs.splice(Math.max(0, urgent), 1);
    this.running = job;
    if (!this.worker) {
      this.worker = this.start();
      this.worker.postMessage({ wasm: this.wasm });
      this.worker.onmessage = (event) => this.answered(event.data);
      this.worker.onerror = (event) => {
        event.preventDefault();
        this.worker = null;
        this.answered(impossible('The worker ended: this browser may have too little memory for a galley of this size.'));
      };
    }
    this.worker.postMessage(job.request);
  }

  /** @param {any} answer */
  answered(answer) {
    const job = this.running;
    this.running = null;
    if (answer.ms) this.lastMs = Math.max(answer.ms, this.lastMs * 0.8);
    if (job) {
      if (this.known.size > MOST_KNOWN) this.known.clear();
      if (answer.number || answer.ok) this.known.set(job.key, answer);
      for (const done of job.done) done(answer);
    }
    this.next();
  }
}
