// The desk without its looks: the list in force, one trial, printed pages, undo, layouts. It is the engine's own desk where the
// list has at most 64 pages; above that each list is marked, and `marking` says so.
import { Desk, DESK_PAGES, DESK_WORDS, LONGEST_NAME } from '../../engine/desk.js';
import { impossible, refused } from '../../engine/engine.js';
import { sameEnd, toEnds, toWords } from '../../galley/list.js';
import { measure } from '../../galley/measure.js';
import { pairs, scan } from './ends.js';

/**
 * @typedef {import('../../engine/engine.js').Engine} Engine
 * @typedef {import('../../galley/galley.js').Galley} Galley
 * @typedef {import('../../galley/measure.js').Measured} Measured
 * @typedef {object} Trial
 * @property {number} q the page whose end is moved @property {number[]} end
 * @property {number[] | null} second the end of the next page, where both are moved
 * @property {any} answer @property {number | null} change in turns @property {Measured} measured
 * @property {Uint32Array | null} whole another list altogether @property {string} what
 * @typedef {{desk: Desk | null, words: Uint32Array, kept: Map<string, Uint32Array>}} Sheet  kept: layouts of a list above 64 pages
 */

const MOST_HISTORY = 200;

/** @param {ArrayLike<number>} words */
const spaced = (words) => Array.from(words).join(' ');
/** @param {string} text */
const wordsOf = (text) => Uint32Array.from(text ? text.split(' ').map(Number) : []);

export class Bench {
  /** @param {Engine} engine @param {Galley} g */
  constructor(engine, g) {
    this.engine = engine;
    this.g = g;
    /** @type {Sheet[]} */ this.sheets = [];
    /** @type {Sheet | null} */ this.sheet = null;
    /** @type {{words: Uint32Array, what: string}[]} */ this.history = [];
    this.at = -1;
    /** @type {Trial | null} */ this.trial = null;
    /** Pages that are printed and stay. */
    this.printed = 0;
    /** @type {Map<number, import('./ends.js').Scan>} */ this.scans = new Map();
    /** @type {Map<number, import('./ends.js').Pairs>} */ this.paired = new Map();
    /** @type {any} */ this.mark = null;
    /** @type {any} */ this.measured = null;
    /** @type {number[][]} */ this.ends = [];
  }

  get open() { return !!this.sheet; }
  /** Whether this list is too long for the engine's desk. */
  get marking() { return !!this.sheet && !this.sheet.desk; }
  get words() { return this.sheet.words; }
  get p() { return this.ends.length; }

  /** Gives its desks back. */
  close() { for (const sheet of this.sheets) sheet.desk?.close(); }

  /** The first list on an empty bench.
   * @param {ArrayLike<number>} words @param {string} what */
  begin(words, what) {
    this.history = [];
    this.at = -1;
    this.printed = 0;
    return this.put(words, what);
  }

  /** Another list in force, on a desk of its own.
   * @param {ArrayLike<number>} words @param {string} what */
  put(words, what) {
    const placed = this.place(words);
    if (placed.ok) this.remember(what);
    return placed;
  }

  /** @param {ArrayLike<number>} words */
  place(words) {
    const mark = this.engine.mark(this.g.bytes, words);
    if (!mark.ok) return mark;
    /** @type {Sheet} */ const sheet = { desk: null, words: Uint32Array.from(words), kept: new Map() };
    if (mark.p <= DESK_PAGES) {
      this.sweep();
      const desk = this.engine.openDesk(this.g.bytes, words);
      if (!(desk instanceof Desk)) return desk;
      sheet.desk = desk;
    }
    this.sheets.push(sheet);
    this.sheet = sheet;
    this.refresh();
    return mark;
  }

  /** Sheets without layouts are not needed any more: lists are in the history. */
  sweep() {
    this.sheets = this.sheets.filter((sheet) => {
      const needed = sheet.desk ? sheet.desk.layouts().length > 0 : sheet.kept.size > 0;
      if (!needed) sheet.desk?.close();
      return needed;
    });
  }

  refresh() {
    const { sheet } = this;
    if (sheet.desk) sheet.words = sheet.desk.list();
    this.ends = toEnds(sheet.words, this.g.width);
    this.mark = this.engine.mark(this.g.bytes, sheet.words);
    this.measured = measure(this.g, this.ends, 'in force');
    this.trial = null;
    this.scans.clear();
    this.paired.clear();
  }

  /** @param {string} what */
  remember(what) {
    this.history.length = this.at + 1;
    this.history.push({ words: this.sheet.words.slice(), what });
    if (this.history.length > MOST_HISTORY) this.history.shift();
    this.at = this.history.length - 1;
  }

  /** Pages up to this one are printed: no end of theirs moves any more.
   * @param {number} pages */
  setPrinted(pages) {
    this.printed = Math.max(0, Math.min(pages, this.p - 1));
    this.trial = null;
  }

  /** Whether a list begins with the printed pages.
   * @param {ArrayLike<number>} words */
  keepsPrinted(words) {
    const length = this.printed * this.g.width;
    for (let k = 0; k < length; k++) if (words[k] !== this.words[k]) return false;
    return true;
  }

  /** The bounds of a page's end: what is placed before the page, and with the next one.
   * @param {number} q */
  bounds(q) { return { a: q > 1 ? this.ends[q - 2] : [0, 0, 0], c: this.ends[q] }; }

  /** Every end of page q, marked.
   * @param {number} q */
  scan(q) {
    if (!this.scans.has(q)) this.scans.set(q, scan(this, q));
    return this.scans.get(q);
  }

  /** Every end of page q together with one of the next page, marked.
   * @param {number} q */
  pairs(q) {
    if (!this.paired.has(q)) this.paired.set(q, pairs(this, q));
    return this.paired.get(q);
  }

  /** Asks about another end. The end in force clears the trial.
   * @param {number} q @param {number[]} end */
  try(q, end) {
    const { a, c } = this.bounds(q), e = end.map((x, s) => Math.max(a[s], Math.min(c[s], x)));
    this.trial = null;
    if (q <= this.printed || sameEnd(e, this.ends[q - 1])) return null;
    const ends = this.ends.slice();
    ends[q - 1] = e;
    const answer = this.sheet.desk ? this.sheet.desk.ask(q, e) : this.engine.mark(this.g.bytes, toWords(ends, this.g.width));
    return this.tried(q, e, null, answer, ends, null, '');
  }

  /**
   * Asks about the ends of a page and of the next one together.
   * @param {number} q @param {number[]} end @param {number[]} second
   */
  tryPair(q, end, second) {
    if (sameEnd(second, this.ends[q])) return this.try(q, end);
    const ends = this.ends.slice();
    ends[q - 1] = end;
    ends[q] = second;
    return this.tried(q, end, second, this.engine.mark(this.g.bytes, toWords(ends, this.g.width)), ends, null, '');
  }

  /**
   * Another list as a trial: nothing is in force before it is committed.
   * @param {number} q @param {ArrayLike<number>} words @param {string} what
   */
  tryList(q, words, what) {
    const ends = toEnds(words, this.g.width), at = Math.min(q, ends.length);
    return this.tried(q, ends[at - 1], null, this.engine.mark(this.g.bytes, words), ends, Uint32Array.from(words), what);
  }

  /** @returns {Trial} */
  tried(q, end, second, answer, ends, whole, what) {
    const change = answer.ok ? answer.t - this.mark.t : null;
    this.trial = { q, end, second, answer, change, measured: measure(this.g, ends, 'trial'), whole, what };
    return this.trial;
  }

  cancel() { this.trial = null; }

  /** Puts the trial in force. */
  commit() {
    const { trial } = this;
    if (!trial) return refused(24, 0);
    if (!trial.answer.ok) return trial.answer;
    if (trial.whole) return this.put(trial.whole, trial.what);
    const moves = trial.second ? [[trial.q, trial.end], [trial.q + 1, trial.second]] : [[trial.q, trial.end]];
    const done = this.alter(moves, toWords(trial.measured.ends, this.g.width));
    if (!done.ok) return done;
    this.remember(trial.second ? `pages ${trial.q} and ${trial.q + 1}` : `page ${trial.q}`);
    return this.mark;
  }

  /**
   * Alters ends of the list in force by the engine's own asks and commits, in whichever order it accepts them; where it accepts
   * neither alone, a desk is opened on the whole list.
   * @param {any[][]} moves page and end @param {Uint32Array} words of all
   */
  alter(moves, words) {
    const { desk } = this.sheet;
    if (!desk) {
      this.sheet.words = words;
      this.refresh();
      return this.mark;
    }
    for (const order of moves.length === 2 ? [moves, [moves[1], moves[0]]] : [moves]) {
      if (!desk.ask(order[0][0], order[0][1]).ok) continue;
      for (const [page, end] of order) {
        desk.ask(page, end);
        const done = desk.commit();
        if (!done.ok) return done;
      }
      this.refresh();
      return this.mark;
    }
    return this.place(words);
  }

  get canUndo() { return this.at > 0 && this.keepsPrinted(this.history[this.at - 1].words); }
  get canRedo() { return this.at < this.history.length - 1 && this.keepsPrinted(this.history[this.at + 1].words); }
  undo() { return this.canUndo ? this.go(this.at - 1) : null; }
  redo() { return this.canRedo ? this.go(this.at + 1) : null; }

  /** A list of the history, by asks and commits where one end differs or two that are neighbours.
   * @param {number} to */
  go(to) {
    const { words } = this.history[to], { what } = this.history[Math.max(to, this.at)], ends = toEnds(words, this.g.width);
    const other = ends.map((end, k) => this.ends[k] && sameEnd(end, this.ends[k]) ? -1 : k).filter((k) => k >= 0);
    const like = ends.length === this.p, near = like && (other.length === 1 || (other.length === 2 && other[1] === other[0] + 1));
    this.at = to;
    if (near) this.alter(other.map((k) => [k + 1, ends[k]]), words.slice());
    else if (!like || other.length) this.place(words);
    return { what, page: near ? other[0] + 1 : 0 };
  }

  /** All layouts, of every sheet.
   * @returns {{name: string, words: Uint32Array, sheet: Sheet}[]} */
  layouts() {
    return this.sheets.flatMap((sheet) => sheet.desk ? sheet.desk.layouts().map((one) => ({ name: one.name, words: one.list, sheet }))
      : [...sheet.kept].map(([name, words]) => ({ name, words, sheet })));
  }

  /** Saves the list in force. A name is used once, whatever sheet it is on.
   * @param {string} name */
  save(name) {
    const bytes = new TextEncoder().encode(name).length;
    if (bytes < 1 || bytes > LONGEST_NAME) return refused(25, 0);
    const before = this.layouts().find((one) => one.name === name), { sheet } = this;
    const saved = sheet.desk ? sheet.desk.save(name) : { ok: true };
    if (!sheet.desk) sheet.kept.set(name, sheet.words.slice());
    if (saved.ok && before && before.sheet !== sheet) this.dropFrom(before.sheet, name);
    return saved;
  }

  /** @param {Sheet} sheet @param {string} name @returns {any} */
  dropFrom(sheet, name) {
    if (sheet.desk) return sheet.desk.drop(name);
    sheet.kept.delete(name);
    return { ok: true };
  }

  /** @param {string} name @returns {any} */
  drop(name) {
    const layout = this.layouts().find((one) => one.name === name);
    return layout ? this.dropFrom(layout.sheet, name) : refused(26, 0);
  }

  /** Comes back to a layout.
   * @param {string} name @returns {any} */
  back(name) {
    const layout = this.layouts().find((one) => one.name === name);
    if (!layout) return refused(26, 0);
    if (!this.keepsPrinted(layout.words)) return impossible(`${name} has other pages than the ${this.printed} that are printed.`);
    const { sheet } = layout;
    if (sheet.desk) {
      const back = sheet.desk.back(name);
      if (!back.ok) return back;
    } else sheet.words = layout.words.slice();
    this.sheet = sheet;
    this.refresh();
    this.remember(`back to ${name}`);
    return this.mark;
  }

  /** What survives a reload: a desk is plain data. */
  keep() {
    const marked = (one) => ({ words: spaced(one.words), kept: [...one.kept].map(([name, words]) => [name, spaced(words)]) });
    const sheet = (one) => one.desk ? { desk: spaced(trimmed(one.desk.words)) } : marked(one);
    return { at: this.at, printed: this.printed, sheet: this.sheets.indexOf(this.sheet),
      history: this.history.map(({ what, words }) => ({ what, words: spaced(words) })), sheets: this.sheets.map(sheet) };
  }

  /** Comes back from `keep`; every list is marked again before it is shown.
   * @param {any} kept @returns {boolean} */
  restore(kept) {
    const accepted = (words) => this.engine.mark(this.g.bytes, words).ok;
    try {
      for (const one of kept.sheets) if (!this.restoreSheet(one)) return false;
      if (!this.sheets.every((sheet) => accepted(sheet.words)) || !this.layouts().every((one) => accepted(one.words))) return false;
      this.history = kept.history.map(({ what, words }) => ({ what: String(what), words: wordsOf(words) }));
      this.at = Math.max(0, Math.min(Number(kept.at), this.history.length - 1));
      this.sheet = this.sheets[kept.sheet] ?? null;
      if (!this.sheet || !this.history.length) return false;
      this.refresh();
      this.setPrinted(Number(kept.printed) || 0);
      return true;
    } catch { return false; }
  }

  /** @param {any} one */
  restoreSheet(one) {
    if (!one.desk) {
      const kept = new Map(one.kept.map(([name, words]) => [String(name), wordsOf(words)]));
      this.sheets.push({ desk: null, words: wordsOf(one.words), kept });
      return true;
    }
    const words = new Uint32Array(DESK_WORDS);
    words.set(wordsOf(one.desk).subarray(0, DESK_WORDS));
    const desk = this.engine.desk(this.g.bytes, words);
    if (!(desk instanceof Desk)) return false;
    this.sheets.push({ desk, words: desk.list(), kept: new Map() });
    return true;
  }
}

/** Words without the zeros at their end.
 * @param {Uint32Array} words */
function trimmed(words) {
  let length = words.length;
  while (length > 1 && !words[length - 1]) length--;
  return Array.from(words.subarray(0, length));
}
