// The page's state: one galley, its lists, the best one, the desk; and the views of them. What is worked on survives a reload.
import { Engine } from '../engine/engine.js';
import { advice } from '../galley/advice.js';
import { read } from '../galley/galley.js';
import { readList, toEnds, toWords } from '../galley/list.js';
import { lostForGood } from '../galley/lost.js';
import { measure } from '../galley/measure.js';
import { sentence } from '../galley/refusals.js';
import { plural, specification } from '../galley/words.js';
import { bookView } from './book.js';
import { classView } from './class.js';
import { Bench } from './desk/bench.js';
import { DeskHand } from './desk/hand.js';
import { byId, el, put, state } from './dom.js';
import { openSample, readFiles, take } from './intake.js';
import { Keeper } from './keeper.js';
import { Maker } from './maker.js';
import { openView } from './open.js';
import { elapsed } from './show/states.js';
import { showView } from './show/show.js';

/**
 * @typedef {import('../galley/galley.js').Galley} Galley
 * @typedef {import('../galley/measure.js').Measured} Measured
 * @typedef {import('../galley/explain.js').Lost} Lost
 * @typedef {{name: string, words: Uint32Array, ends: number[][], mark: any}} List
 */

const ABOUT = 'Page make-up that is proved: make, compare, and try page ends at the desk.';
const VIEWS = ['open', 'show', 'class', 'desk', 'book'];
/**
 * Making that takes longer, in ms, is not done again and again unasked; where its time is not known, the words of its work
 * area tell.
 */
const QUICK = 400, SHORT = 4e6;
/** What is lost for good takes a dozen makings, in the worker, while nobody waits. */
const PATIENT = 1500;

export class App {
  /** @param {WebAssembly.Module} module @param {ArrayBuffer} wasm @param {string} script of the page, and of its worker */
  constructor(module, wasm, script) {
    this.engine = new Engine(module);
    const url = URL.createObjectURL(new Blob([script], { type: 'text/javascript' })), start = () => new Worker(url);
    this.maker = new Maker(start, wasm);
    this.binder = new Maker(start, wasm);
    /** @type {import('./files.js').Sample[]} */ this.inside = [];
    this.tab = 'open';
    /** @type {any} */ this.book = null;
    this.clear();
    this.hand = new DeskHand(byId('desk'), this);
    this.keeper = new Keeper(this);
    this.store = this.keeper.store;
    this.times = { start: performance.now(), open: 0, best: 0, drawn: 0 };
    this.listen();
  }

  clear() {
    /** @type {string} */ this.name = '';
    /** @type {Uint8Array | null} */ this.bytes = null;
    /** @type {Galley | null} */ this.g = null;
    /** @type {any} */ this.forecast = null;
    /** @type {any} */ this.refused = null;
    /** @type {any} */ this.best = null;       // the engine's best list, with its ends
    /** @type {any} */ this.after = null;      // the best after the printed pages, where there are any
    this.making = false;
    this.stopped = false;
    /** @type {null | string | string[]} */ this.advice = null;
    /** @type {List[]} */ this.lists = [];
    /** @type {Set<string>} */ this.chosen = new Set();
    this.bench?.close();
    /** @type {Bench | null} */ this.bench = null;
    /** @type {Map<string, 'looking' | Lost[]>} */ this.lost = new Map();
    this.measures = new WeakMap();
  }

  /** Another galley.
   * @param {string} name @param {Uint8Array} bytes @param {ArrayLike<number> | null} [best] where it is known */
  openGalley(name, bytes, best = null) {
    this.times.open = performance.now();
    this.keeper.flush();
    this.clear();
    this.name = name;
    this.bytes = bytes;
    this.maker.reset(bytes);
    const told = this.engine.forecast(bytes);
    if (!told.ok) {
      this.refused = told;
      return false;
    }
    this.forecast = told;
    this.g = read(bytes);
    this.bench = new Bench(this.engine, this.g);
    const mark = best ? this.engine.mark(bytes, best) : null;
    if (mark?.ok) this.bestKnown({ ...mark, list: Uint32Array.from(best) }); else this.makeBest();
    return true;
  }

  async makeBest() {
    const { g } = this;
    this.making = true;
    this.stopped = false;
    this.makingSince = performance.now();
    this.hand.setBest(null, true);
    const told = setInterval(() => this.makingGoesOn(), 200), made = await this.maker.make([]);
    clearInterval(told);
    if (this.g !== g) return;
    this.making = false;
    this.stopped = !!(/** @type {any} */ (made).stopped);
    this.bestKnown(this.stopped ? null : made);
    if (made.number === 11 && this.quick()) this.advise();
  }

  /** @param {any} made */
  bestKnown(made) {
    this.best = made?.ok ? { ...made, ends: toEnds(made.list, this.g.width) } : made;
    this.times.best = performance.now();
    if (made?.ok && !this.bench.open) {
      this.bench.put(made.list, 'the best list');
      this.hand.show(this.bench);
    }
    this.hand.setBest(this.target(), false);
    if (this.tab !== 'desk' || !this.bench.open) this.draw();
    this.keep();
  }

  makingGoesOn() {
    const told = byId('elapsed');
    if (told) told.textContent = elapsed(this);
    else if (this.tab === 'show' || this.tab === 'desk') this.draw();
  }

  stopMaking() { this.maker.stop(); }

  /** What a list at the desk is held to: the best list, or the best after the printed pages. */
  target() { return this.bench?.printed ? this.after : this.best; }

  /** Fixes pages up to one as printed, or none, and makes what follows best.
   * @param {number} pages */
  async setPrinted(pages) {
    const { bench } = this;
    bench.setPrinted(pages);
    this.after = null;
    this.lost.clear();
    this.hand.setBest(this.target(), pages > 0);
    if (pages > 0) {
      const made = await this.maker.make(bench.words.subarray(0, pages * this.g.width));
      if (bench !== this.bench || bench.printed !== pages) return;
      this.after = made.ok ? { ...made, ends: toEnds(made.list, this.g.width) } : made;
      this.hand.setBest(this.after, false);
    }
    this.keep();
  }

  /** The pages of an unfinished list as printed, and the rest made after them.
   * @param {string} name @param {number[][]} ends */
  async makeAfterList(name, ends) {
    const made = await this.maker.make(toWords(ends, this.g.width));
    if (made.number === 11) return this.adviseOpening(name, toWords(ends, this.g.width));
    if (!made.ok) return this.toast(sentence(made));
    this.bench.put(made.list, `${name}, and the rest made after it`);
    this.go('desk');
    this.hand.show(this.bench, Math.min(ends.length + 1, this.bench.p - 1));
    this.setPrinted(ends.length);
  }

  /** What would have to give where no list begins with an opening.
   * @param {string} name @param {Uint32Array} opening */
  async adviseOpening(name, opening) {
    this.keeper.notice(`No list begins with the pages of ${name} (11). Looking for what would have to give…`);
    const { g } = this, remarks = await advice(g, opening, async (bytes, words) => (await this.maker.tryBytes(bytes, words)).ok);
    if (this.g === g) this.keeper.notice(`No list begins with the pages of ${name} (11): ${remarks.join('; ')}.`);
  }

  /** What would have to give where no pagination exists. */
  async advise() {
    const { g } = this;
    let tried = 0;
    this.advice = 'Trying lower least heights, by halves…';
    this.draw();
    const exists = async (bytes, opening) => {
      const made = await this.maker.tryBytes(bytes, opening), told = byId('view-show').querySelector('.state .soft');
      if (told) told.textContent = `Trying lower least heights, by halves: ${++tried} tried…`;
      return made.ok;
    };
    const remarks = await advice(g, [], exists);
    if (this.g !== g) return;
    this.advice = remarks;
    this.draw();
  }

  /** A list that is handed in.
   * @param {string} name @param {string} text */
  addList(name, text) {
    const list = readList(text, this.g.width), words = list.ok ? list.words : new Uint32Array(0);
    const mark = /** @type {any} */ (list.ok ? this.engine.mark(this.bytes, words) : list);
    this.lists = this.lists.filter((one) => one.name !== name);
    this.lists.push({ name, words, ends: mark.number === 12 ? [] : toEnds(words, this.g.width), mark });
    if (this.chosen.size < 1) this.chosen.add(name);
    return mark;
  }

  /** Files that were dropped, chosen or pasted.
   * @param {import('./files.js').File[]} files */
  take(files) { take(this, files); }

  /** @param {FileList | null} list */
  files(list) { return readFiles(this, list); }

  /** A sample, or what `barleychime show` put into the file.
   * @param {import('./files.js').Sample} sample */
  sample(sample) { openSample(this, sample); }

  /** Several galleys as a book.
   * @param {{name: string, bytes: Uint8Array}[]} chapters */
  async openBook(chapters) {
    const book = { chapters, made: null };
    this.book = book;
    this.binder.reset(null);
    byId('tab-book').hidden = false;
    this.go('book');
    book.made = await this.binder.book(chapters.map((chapter) => chapter.bytes));
    if (this.book === book && this.tab === 'book') this.draw();
  }

  stopBook() { this.binder.stop(); }

  /**
   * A chapter of the book, with the list that it has there.
   * @param {string} name @param {Uint8Array} bytes @param {Uint32Array} list
   */
  openChapter(name, bytes, list) {
    if (!this.openGalley(name, bytes)) return this.go('show');
    this.keeper.resume();
    this.addList('in the book', [...list].join(' '));
    this.chosen = new Set(['in the book']);
    if (!this.bench.open) this.bench.put(list, 'in the book');
    this.go('show');
  }

  /** @param {string} name */
  toDesk(name) {
    const list = this.lists.find((one) => one.name === name);
    if (!list?.mark.ok) return;
    if (this.bench.printed) this.setPrinted(0);
    this.bench.put(list.words, name);
    this.go('desk');
    this.hand.show(this.bench);
  }

  /** @param {string} name @param {boolean} on */
  choose(name, on) {
    if (on) this.chosen.add(name); else this.chosen.delete(name);
    this.keep();
    if (this.tab === 'show') this.draw();
  }

  /** @param {string} name */
  showOnly(name) {
    this.chosen = new Set([name]);
    this.go('show');
    scrollTo(0, 0);
  }

  /** @param {string} tab */
  go(tab) {
    const was = this.tab;
    this.tab = VIEWS.includes(tab) ? tab : 'open';
    for (const view of VIEWS) {
      byId(`view-${view}`).hidden = view !== this.tab;
      byId(`tab-${view}`).toggleAttribute('aria-current', false);
    }
    byId(`tab-${this.tab}`).setAttribute('aria-current', 'page');
    this.draw();
    if (this.tab === 'desk' && this.bench?.open) {
      if (was !== 'desk') this.hand.show(this.bench, this.hand.bench === this.bench ? this.hand.s.q : 0);
      this.hand.view.film.focus({ preventScroll: true });
    }
    this.keep();
  }

  draw() {
    const focused = document.activeElement?.id;
    const book = this.tab === 'book' && this.book, name = book ? 'A book' : this.name;
    byId('title').textContent = name || 'Barleychime';
    document.title = name ? `${name} – Barleychime` : 'Barleychime';
    const about = this.g ? specification(this.g) : this.refused ? '' : ABOUT;
    byId('spec').textContent = book ? plural(book.chapters.length, 'chapter') : about;
    const views = { open: openView, show: showView, class: classView, book: bookView, desk: () => this.drawDesk() };
    views[this.tab](this);
    if (focused && document.activeElement === document.body) byId(focused)?.focus({ preventScroll: true });
  }

  drawDesk() {
    const on = !!this.bench?.open && this.bench.p > 1;
    byId('desk').hidden = !on;
    put(byId('nodesk'), on ? null : this.noDesk());
  }

  /** Why there is no desk. */
  noDesk() {
    const words = (text) => el('p', { class: 'verdict' }, text);
    if (this.refused) return state(`The galley is refused: ${sentence(this.refused)}`);
    if (!this.g) return words('Open a galley first.');
    if (this.making) return words('The best list is being made, and the desk opens on it.');
    const none = el('p', {}, 'The desk opens on a list that is accepted, and there is none.');
    if (this.best && !this.best.ok) return state(sentence(this.best), none);
    if (this.bench.open) return words('The list has one page: there is no end to move.');
    return words('The desk opens on a list that is accepted: hand one in, or make the best.');
  }

  /** What can stand above the best: the lists handed in, the one in force at the desk, the layouts.
   * @returns {any[]} */
  comparable() {
    const { bench, g } = this, worked = bench.open && bench.history.length > 1;
    const own = worked ? [{ name: 'at the desk', ends: bench.ends, mark: bench.mark }] : [];
    const layout = ({ name, words }) => ({ name: `layout ${name}`, ends: toEnds(words, g.width), mark: { ok: true } });
    return [...this.lists, ...own, ...bench.layouts().map(layout)];
  }

  /** @param {{name: string, ends: number[][]}} list @returns {Measured} */
  measured(list) {
    if (!this.measures.has(list.ends)) this.measures.set(list.ends, measure(this.g, list.ends, list.name));
    return this.measures.get(list.ends);
  }

  /** @returns {Measured | null} */
  bestMeasured() {
    const best = this.target(), name = this.bench?.printed ? `best after page ${this.bench.printed}` : 'best';
    return best?.ok ? this.measured({ name, ends: best.ends }) : null;
  }

  /**
   * What a list loses for good: known, being looked for, or null where it takes long and nobody has asked.
   * @param {Measured} L
   */
  lostOf(L) {
    const best = this.target();
    if (!L.ok || !best?.ok) return null;
    if (L.T <= best.t) return [];
    const key = L.ends.join(' ');
    if (!this.lost.has(key) && this.quick(PATIENT)) this.findLost(L);
    return this.lost.get(key) ?? null;
  }

  /** @param {Measured} L */
  async findLost(L) {
    const { g } = this, key = L.ends.join(' '), words = toWords(L.ends, g.width), asked = !this.lost.has(key);
    this.lost.set(key, 'looking');
    if (asked && !this.quick(PATIENT)) this.draw();
    const { printed } = this.bench, bestAfter = (q) => this.maker.make(words.subarray(0, Math.max(q, printed) * g.width), false);
    const lost = await lostForGood(g, L.ends, bestAfter, () => this.g === g);
    if (this.g !== g) return;
    if (lost) this.lost.set(key, lost); else this.lost.delete(key);
    if (this.tab === 'show') this.draw();
  }

  /** Whether making is so quick that it may be done unasked.
   * @param {number} [ms] */
  quick(ms = QUICK) { return this.maker.lastMs ? this.maker.lastMs < ms : !!this.forecast && this.forecast.work < SHORT; }

  plainName() { return this.name.replace(/\.(galley|txt)$/, '') || 'galley'; }
  keep() { this.keeper.soon(); }
  /** @param {string} key */
  reopen(key) { this.keeper.reopen(key); }
  /** @param {string | null} key */
  clearKept(key) { this.keeper.clear(key); }

  /** @param {string} text */
  toast(text) {
    const toast = byId('toast');
    toast.textContent = text;
    toast.hidden = false;
    clearTimeout(this.toastTimer);
    this.toastTimer = setTimeout(() => { toast.hidden = true; }, Math.max(2600, 60 * text.length));
  }

  listen() {
    for (const view of VIEWS) byId(`tab-${view}`).addEventListener('click', () => this.go(view));
    addEventListener('dragover', (event) => {
      event.preventDefault();
      document.body.classList.add('over');
    });
    addEventListener('dragleave', () => document.body.classList.remove('over'));
    addEventListener('drop', (event) => {
      event.preventDefault();
      document.body.classList.remove('over');
      if (event.dataTransfer) this.files(event.dataTransfer.files);
    });
    addEventListener('beforeprint', () => { for (const one of document.querySelectorAll('details')) one.open = true; });
    const light = (event) => {
      const id = event.target.closest?.('[data-k]')?.getAttribute('data-k');
      for (const one of document.querySelectorAll('.on[data-k]')) one.classList.remove('on');
      if (id) for (const one of document.querySelectorAll(`[data-k="${id}"]`)) one.classList.add('on');
    };
    document.addEventListener('mouseover', light);
    document.addEventListener('focusin', light);
  }
}
