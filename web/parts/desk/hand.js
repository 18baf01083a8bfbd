// The desk's hand: trials, commits, undo, layouts, printed pages; and what is worked out while the hand rests.
import { lostForGood } from '../../galley/lost.js';
import { csvText, madeText, plainText, toEnds, toWords } from '../../galley/list.js';
import { sentence as refusalWords } from '../../galley/refusals.js';
import { signed } from '../../galley/words.js';
import { byId, download } from '../dom.js';
import { fitLine, fitRow, openings, shifted } from './ends.js';
import { keysOf, listenTo } from './input.js';
import { DeskView } from './view.js';

/**
 * @typedef {import('../app.js').App} App
 * @typedef {import('./bench.js').Bench} Bench
 * @typedef {import('./ends.js').Candidate} Candidate
 * @typedef {import('../../galley/explain.js').Lost} Lost
 * @typedef {object} Sitting
 * @property {Bench} bench @property {number} q the page whose end is at hand @property {boolean} pair with the next page's end
 * @property {any} best what the list is held to @property {number[][] | null} bestEnds @property {boolean} making
 * @property {Map<number, number>} gains pages of which another end has fewer turns @property {Map<number, Lost>} losses
 * @property {{end: number[], made: any}[]} rests @property {boolean} busy @property {number} slow ms of making, where that is long
 * @property {boolean} scanned
 */

/** What takes a dozen makings is done unasked where one takes less than this, in ms. */
const PATIENT = 1500;
/** How long a slice of trying every end takes, in ms. */
const SLICE = 8;

export class DeskHand {
  /** @param {HTMLElement} root @param {App} app */
  constructor(root, app) {
    this.app = app;
    this.root = root;
    this.view = new DeskView(root, this);
    /** @type {Sitting} */
    this.s = { bench: null, q: 1, pair: false, best: null, bestEnds: null, making: false, gains: new Map(), losses: new Map(),
      rests: [], busy: false, slow: 0, scanned: false };
    this.version = 0;                       // of the list in force
    this.run = 0;                           // of what is worked out while the hand rests
    this.fresh = true;                      // until the hand does something, the desk may go where turns are lost
    this.askMs = 0;
    /** @type {{y: number, end: number[], last: number, alone: boolean, frame: number} | null} */ this.drag = null;
    listenTo(this);
  }

  get bench() { return this.s.bench; }

  /** Another bench, or the window has another size.
   * @param {Bench} bench @param {number} [q] */
  show(bench, q = 0) {
    this.s.bench = bench;
    this.fresh = !q;
    const waits = bench.measured.floats.find((F) => F.turns > 0);
    this.s.q = this.within(q || (waits ? waits.cp.q : 1));
    this.view.fit(bench.g);
    this.changed(true);
  }

  /** @param {number} q */
  within(q) { return Math.max(1, Math.min(this.bench.p - 1, Math.max(q, this.bench.printed + 1))); }

  /** @param {any} best @param {boolean} making */
  setBest(best, making) {
    const { s } = this;
    s.best = best;
    s.making = making;
    s.slow = this.app.quick() ? 0 : Math.max(1, this.app.maker.lastMs);
    s.bestEnds = best?.ok ? toEnds(best.list, this.app.g.width) : null;
    if (!this.bench?.open || !this.view.Z || this.bench !== this.app.bench) return;
    s.q = this.within(s.q);
    this.paint();
    if (this.bench.p > 1) this.view.drawPanels(s);
    this.idle();
  }

  /** The list in force is another one.
   * @param {boolean} [center] */
  changed(center = false) {
    const { s } = this;
    s.q = this.within(s.q);
    if (s.pair && s.q > this.bench.p - 2) s.pair = false;
    Object.assign(s, { gains: new Map(), losses: new Map(), scanned: false, rests: [] });
    this.version++;
    this.paint(center);
    if (this.bench.p > 1) this.view.drawPanels(s);
    this.app.keep();
    this.idle();
  }

  /** @param {boolean} [center] */
  paint(center = false) { if (this.bench?.p > 1) this.view.draw(this.s, center); }

  /** @param {number} q */
  select(q) {
    const { s, bench } = this;
    if (q < 1 || q >= bench.p) return;
    if (q <= bench.printed) return this.app.toast(`Page ${q} is printed and stays.`);
    const dropped = bench.trial;
    this.fresh = false;
    bench.cancel();
    s.q = q;
    s.rests = [];
    if (s.pair && q > bench.p - 2) s.pair = false;
    this.paint(true);
    this.view.drawPanels(s);
    if (dropped) this.app.toast(`The trial on page ${dropped.q} was not committed.`);
    this.app.keep();
    this.restSoon();
  }

  now() { return this.bench.trial ? this.bench.trial.end : this.bench.ends[this.s.q - 1]; }

  /** @param {number[]} end @param {number[] | null} [second] */
  try(end, second = null) {
    this.fresh = false;
    const from = performance.now(), before = this.now();
    if (second) this.bench.tryPair(this.s.q, end, second); else this.bench.try(this.s.q, end);
    this.askMs = performance.now() - from;
    this.paint();
    const now = this.now();
    if (before[1] !== now[1] || before[2] !== now[2]) this.view.drawPanels(this.s); else this.view.markChips(this.s);
  }

  /** An accepted end.
   * @param {Candidate} one */
  pick(one) {
    this.view.film.focus({ preventScroll: true });
    this.try([one.i, one.j, one.d], one.second);
  }

  /** The end after line i; floats follow where only another placing of them is accepted, or one with fewer turns. */
  toLine(i, follow = true, from = this.now()) {
    const { pair, q } = this.s, ends = (pair ? this.bench.pairs(q) : this.bench.scan(q)).byLine.get(i) ?? [];
    const fit = follow || pair ? fitLine(ends, from) : null;
    if (fit) this.try([i, fit.j, fit.d], fit.second);
    else this.try([i, from[1], from[2]], pair ? this.bench.trial?.second ?? this.bench.ends[q] : null);
  }

  /** @param {number} step @param {boolean} follow */
  lines(step, follow) { this.toLine(this.now()[0] + step, follow); }

  /** To the next line after which some end is accepted.
   * @param {number} step */
  hop(step) {
    const { pair, q } = this.s, at = this.now()[0], { byLine } = pair ? this.bench.pairs(q) : this.bench.scan(q);
    const lines = [...byLine.keys()].filter((i) => step > 0 ? i > at : i < at);
    if (!lines.length) this.app.toast(`No accepted end ${step < 0 ? 'above' : 'below'}.`);
    else this.toLine(step > 0 ? Math.min(...lines) : Math.max(...lines));
  }

  /**
   * Floats to the next page (step −1) or back (step 1); the lines follow to the best accepted end.
   * @param {number} s @param {number} step @param {boolean} [follow] @param {number | null} [to]
   */
  floats(s, step, follow = true, to = null) {
    const end = [...this.now()], { q, pair } = this.s, count = to ?? shifted(this.bench, q, end, s, step);
    if (count === null) return this.app.toast(`No ${s === 1 ? 'figure' : 'table'} to ${step < 0 ? 'push' : 'pull back'}.`);
    end[s] = count;
    const both = pair ? this.bench.pairs(q).accepted.find((one) => one.j === end[1] && one.d === end[2]) : null;
    if (both) return this.pick(both);
    const fit = follow ? fitRow(this.bench.scan(q).rows.get(`${end[1]} ${end[2]}`), end[0]) : null;
    if (fit) end[0] = fit.i;
    this.try(end);
  }

  /** The best end of this page, or of both. */
  pageBest() {
    const { best } = this.s.pair ? this.bench.pairs(this.s.q) : this.bench.scan(this.s.q);
    if (best) this.pick(best); else this.app.toast('No end is accepted here.');
  }

  /** Two neighbouring ends together, or one again. */
  togglePair() {
    const { s, bench } = this;
    if (!s.pair && s.q > bench.p - 2) return this.app.toast('The last page has no end to move: there is one end here.');
    s.pair = !s.pair;
    bench.cancel();
    this.paint();
    this.view.drawPanels(s);
    this.app.toast(s.pair ? `The ends of pages ${s.q} and ${s.q + 1} move together.` : 'One end at a time.');
  }

  commit() {
    const { trial } = this.bench;
    if (!trial) return;
    const done = this.bench.commit();
    if (!done.ok) return this.app.toast(refusalWords(done));
    if (trial.whole) this.view.fit(this.bench.g);
    this.changed(!!trial.whole);
    const what = trial.whole ? trial.what : trial.second ? `Pages ${trial.q} and ${trial.q + 1}` : `Page ${trial.q}`;
    this.app.toast(`${what} committed${trial.change ? `, ${signed(trial.change)}` : ''}.`);
  }

  cancel() {
    const { trial } = this.bench;
    if (!trial) return;
    this.bench.cancel();
    this.paint(!!trial.whole);
    this.view.drawPanels(this.s);
  }

  /** Undo, or redo.
   * @param {boolean} redo */
  step(redo) {
    const { bench } = this, step = redo ? bench.redo() : bench.undo();
    const held = bench.printed && bench.at > 0 ? 'What came before has other printed pages.' : 'Nothing to undo.';
    if (!step) return this.app.toast(redo ? 'Nothing to redo.' : held);
    if (step.page && step.page < bench.p) this.s.q = step.page;
    this.view.fit(bench.g);
    this.changed(true);
    this.app.toast(`${redo ? 'Redone' : 'Undone'}: ${step.what}.`);
  }

  /** Keeps the pages up to this end and makes the rest best.
   * @param {number[]} [end] */
  async rest(end = this.now()) {
    const { bench, version } = this, { q } = this.s, opening = toWords([...bench.ends.slice(0, q - 1), end], bench.g.width);
    if (this.s.slow) this.app.toast('Making…');
    const made = await this.app.maker.make(opening);
    if (version !== this.version || q !== this.s.q) return;
    if (!made.ok) return this.app.toast(made.number === 11 ? `No list begins with these ${q} pages.` : refusalWords(made));
    if (made.list.join() === bench.words.join()) return this.app.toast(`The pages after page ${q} are the best already.`);
    this.tryList(made.list, `Best after page ${q}`);
  }

  /** The best list, or the best after the printed pages, as a trial. */
  makeBest() {
    const { printed } = this.bench, what = printed ? `Best after page ${printed}, the last that is printed` : 'The best list';
    if (this.s.best?.ok) this.tryList(this.s.best.list, what);
  }

  /** Another list altogether is a trial too.
   * @param {ArrayLike<number>} list @param {string} what */
  tryList(list, what) {
    this.fresh = false;
    this.bench.tryList(this.s.q, list, what);
    this.s.q = Math.max(1, Math.min(this.s.q, this.bench.trial.measured.p - 1, this.bench.p - 1));
    this.paint(true);
    this.view.markChips(this.s);
  }

  /** Pages up to this end are printed, or none any more. */
  togglePrinted() {
    const { bench } = this, pages = bench.printed ? 0 : this.s.q;
    if (!pages) {
      this.app.setPrinted(0);
      this.app.toast('No page is printed any more.');
    } else if (pages >= bench.p - 1) this.app.toast('With all pages but the last printed there would be no end to move.');
    else {
      this.app.setPrinted(pages);
      const what = pages === 1 ? 'Page 1 is printed and stays' : `Pages 1 to ${pages} are printed and stay`;
      this.app.toast(`${what}. Make best makes the rest after that.`);
    }
    this.s.q = this.within(this.s.q);
    this.paint(true);
    this.view.drawPanels(this.s);
  }

  save() {
    const input = byId('name'), name = input.value.trim() || input.placeholder, saved = this.bench.save(name);
    this.app.toast(saved.ok ? `Saved as ${name}.` : refusalWords(/** @type {any} */ (saved)));
    if (saved.ok) {
      input.value = '';
      this.view.film.focus({ preventScroll: true });
    }
    this.named();
  }

  /** @param {string} name */
  back(name) {
    const back = this.bench.back(name);
    if (!back.ok) return this.app.toast(refusalWords(back));
    this.view.film.focus({ preventScroll: true });
    this.view.fit(this.bench.g);
    this.changed(true);
    this.app.toast(`Back to ${name}.`);
  }

  /** @param {string} name */
  drop(name) {
    const dropped = this.bench.drop(name);
    this.app.toast(dropped.ok ? `${name} dropped.` : refusalWords(dropped));
    this.named();
  }

  named() {
    this.view.drawPanels(this.s);
    this.app.keep();
  }

  /** The list in force as a file that `barleychime mark` takes. */
  write() {
    const name = `${this.app.plainName()}.${byId('form').value === 'csv' ? 'csv' : 'list'}`;
    download(name, this.form());
    this.app.toast(`${name} written.`);
  }

  form() {
    const { ends, mark, g } = this.bench, forms = { csv: csvText, plain: plainText, made: (all, width) => madeText(mark, all, width) };
    return forms[byId('form').value](ends, g.width);
  }

  /** While the hand rests: every end of every page, then where turns are lost for good. */
  idle() {
    const { version, s, bench } = this, run = ++this.run;
    this.app.maker.forget();
    let q = bench.printed + 1;
    const slice = () => {
      if (run !== this.run || version !== this.version || s.scanned) return;
      const from = performance.now();
      for (; q < bench.p && performance.now() - from < SLICE; q++) {
        const { best } = bench.scan(q);
        if (best && best.change < 0) s.gains.set(q, best.change);
      }
      if (q < bench.p) setTimeout(slice, this.drag ? 200 : 4);
      else {
        s.scanned = true;
        this.paint();
      }
    };
    setTimeout(slice, 60);
    this.findLosses(false);
    this.restSoon();
  }

  /** Where turns are lost for good; where making is slow only when it is asked for.
   * @param {boolean} asked */
  async findLosses(asked) {
    const { s, bench, run } = this, { maker } = this.app, words = bench.words.slice(), { width } = bench.g;
    s.slow = this.app.quick() ? 0 : Math.max(1, maker.lastMs);
    if (!s.best?.ok || (!asked && !this.app.quick(PATIENT)) || bench.mark.t === s.best.t) return;
    if (asked) this.app.toast('Looking by halves; it goes on while you work.');
    const bestAfter = (q) => maker.make(words.subarray(0, Math.max(q, bench.printed) * width), false);
    const lost = await lostForGood(bench.g, bench.ends, bestAfter, () => run === this.run);
    if (!lost) return;
    s.losses = new Map(lost.filter((one) => one.page < bench.p).map((one) => [one.page, one]));
    this.paint();
    if (!this.fresh || !lost.length) return;
    this.fresh = false;
    if (!bench.trial) this.select(Math.min(lost[0].page, bench.p - 1));
  }

  /** Ends of this page with the rest made best, where making is quick. */
  restSoon() {
    clearTimeout(this.restTimer);
    this.restTimer = setTimeout(() => this.rests(), 350);
  }

  async rests() {
    const { s, version, bench } = this, { q } = s, ms = this.app.maker.lastMs;
    if (!s.best || !this.app.quick() || this.app.tab !== 'desk' || bench.p < 2) return;
    const ends = openings(bench, q, ms < 40 ? 60 : ms < 150 ? 24 : 8), before = bench.ends.slice(0, q - 1);
    Object.assign(s, { rests: [], busy: true });
    let last = 0;
    for (const end of ends) {
      const made = await this.app.maker.make(toWords([...before, end], bench.g.width), false);
      if (version !== this.version || q !== s.q) return;
      if (made.ok) s.rests.push({ end, made });
      if (performance.now() - last < 150) continue;
      last = performance.now();
      this.view.drawPanels(s);
    }
    s.busy = false;
    this.view.drawPanels(s);
  }

  nextHint() {
    const all = [...new Set([...this.s.gains.keys(), ...this.s.losses.keys()])].sort((a, b) => a - b);
    if (!all.length) this.app.toast(this.s.scanned ? 'No end of one page alone has fewer turns.' : 'Still trying every end…');
    else this.select(all.find((q) => q > this.s.q) ?? all[0]);
  }

  help() { keysOf(); }
}
