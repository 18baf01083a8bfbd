// The engine's own desk, in lent memory: what is proved of the desk holds for what is done here.

/**
 * @typedef {import('./engine.js').Engine} Engine
 * @typedef {import('./engine.js').Mark} Mark
 * @typedef {import('./engine.js').Refusal} Refusal
 */

export const DESK_PAGES = 64;
export const MOST_LAYOUTS = 8;
export const LONGEST_NAME = 16;
export const DESK_WORDS = 1774;
const LAYOUT_WORDS = 197, LAYOUTS_AT = 198, LAYOUT_NAME = 1, LAYOUT_LIST = 5;

const utf8 = new TextEncoder(), text = new TextDecoder();

export class Desk {
  /** @param {Engine} engine @param {Uint8Array} bytes @param {number} slot @param {number} at */
  constructor(engine, bytes, slot, at) {
    this.engine = engine;
    this.bytes = bytes;
    this.slot = slot;
    this.at = at;
  }

  close() { this.engine.desks.delete(this.slot); }

  get words() { return this.engine.words(this.at, DESK_WORDS).slice(); }

  /**
   * Another end of a page: pending where it is accepted.
   * @param {number} page @param {ArrayLike<number>} end @returns {Mark | Refusal}
   */
  ask(page, end) {
    const e = this.engine, length = e.galley(this.bytes);
    e.words(e.endAt, 3).set([end[0], end[1], end[2] || 0]);
    e.calls.barleychime_desk_ask(e.galleyAt, length, page, e.endAt, this.at, e.answerAt);
    return e.answer();
  }

  /** Puts in force what is pending.
   * @returns {Mark | Refusal} */
  commit() {
    this.engine.calls.barleychime_desk_commit(this.at, this.engine.answerAt);
    return this.engine.answer();
  }

  /** The list in force.
   * @returns {Uint32Array} */
  list() {
    const e = this.engine;
    e.calls.barleychime_desk_list(this.at, e.listAt, e.answerAt);
    return e.words(e.listAt, e.words(e.answerAt, 9)[2] * e.words(this.at, 2)[1]).slice();
  }

  /** A call that takes a name.
   * @param {string} call @param {string} name @returns {Mark | Refusal} */
  named(call, name) {
    const e = this.engine, bytes = utf8.encode(name).subarray(0, LONGEST_NAME + 1);
    new Uint8Array(e.memory.buffer).set(bytes, e.nameAt);
    e.calls[call](e.nameAt, BigInt(bytes.length), this.at, e.answerAt);
    return e.answer();
  }

  /** @param {string} name */
  save(name) { return this.named('barleychime_desk_save', name); }

  /** @param {string} name */
  back(name) { return this.named('barleychime_desk_back', name); }

  /** @param {string} name */
  drop(name) { return this.named('barleychime_desk_drop', name); }

  /** The layouts held, read from the desk's words.
   * @returns {{name: string, list: Uint32Array}[]} */
  layouts() {
    const words = this.words, size = words[0] * words[1], out = [];
    for (let k = 0; k < MOST_LAYOUTS; k++) {
      const at = LAYOUTS_AT + LAYOUT_WORDS * k, length = words[at];
      if (length < 1 || length > LONGEST_NAME) continue;
      const name = text.decode(new Uint8Array(words.buffer, 4 * (at + LAYOUT_NAME), length));
      out.push({ name, list: words.slice(at + LAYOUT_LIST, at + LAYOUT_LIST + size) });
    }
    return out;
  }
}
