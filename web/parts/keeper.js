// Keeps the work on a galley a little after it changes, and brings it back; says so when another window has kept other work.
import { Bench } from './desk/bench.js';
import { byId, button, el, put } from './dom.js';
import { fromBase64, toBase64 } from './files.js';
import { Store, sumOf } from './store.js';

/** @typedef {import('./app.js').App} App */

const SOON = 150;

export class Keeper {
  /** @param {App} app */
  constructor(app) {
    this.app = app;
    this.store = new Store(() => this.contested());
    this.resumed = false;
    addEventListener('pagehide', () => this.flush());
  }

  /** Keeps the state a little later, once. */
  soon() {
    clearTimeout(this.timer);
    this.timer = setTimeout(() => this.flush(), SOON);
  }

  /** Keeps it now, if something is to be kept. */
  flush() {
    if (this.timer === undefined) return;
    clearTimeout(this.timer);
    this.timer = undefined;
    const { app } = this;
    this.store.keepView({ ...this.view(), key: app.g ? this.store.key : '', ms: app.maker.lastMs });
    if (app.g && !this.store.keep(this.work())) app.toast('This browser has no room to keep the work: clear what is kept of others (Open).');
  }

  /** What this window shows. */
  view() { return { tab: this.app.tab, q: this.app.hand.s.q, chosen: [...this.app.chosen] }; }

  /** The work as plain data. */
  work() {
    const { app } = this, lists = app.lists.map((list) => ({ name: list.name, text: list.words.join(' ') }));
    return { name: app.name, galley: toBase64(app.bytes), lists,
      best: app.best?.ok ? app.best.list.join(' ') : null, bench: app.bench?.open ? app.bench.keep() : null };
  }

  /** After a galley was opened: takes up what is kept of it.
   * @returns {boolean} whether there was a desk */
  resume() {
    const { app } = this, work = this.store.read(sumOf(app.bytes));
    this.resumed = false;
    this.notice(null);
    if (!work || !app.g) return false;
    for (const list of work.lists ?? []) app.addList(String(list.name), String(list.text));
    if (!work.bench) return false;
    const again = new Bench(app.engine, app.g);
    if (!again.restore(work.bench)) {
      again.close();
      app.toast('The desk could not be restored: a list on it is not accepted.');
      return false;
    }
    app.bench.close();
    app.bench = again;
    this.resumed = true;
    if (again.printed) app.setPrinted(again.printed);
    return true;
  }

  /** Opens a galley that is kept.
   * @param {string} key @param {any} [view] @returns {boolean} */
  reopen(key, view = null) {
    const { app } = this, work = this.store.read(key);
    if (!work?.galley) return false;
    const best = work.best ? Uint32Array.from(String(work.best).split(' ').map(Number)) : null;
    app.openGalley(String(work.name), fromBase64(work.galley), best);
    if (view?.ms) app.maker.lastMs = Number(view.ms);
    this.resume();
    app.chosen = new Set(view?.chosen ?? app.lists.slice(0, 1).map((list) => list.name));
    app.tab = 'open';
    app.go(view?.tab && view.tab !== 'book' ? view.tab : 'show');
    if (app.bench?.open) app.hand.show(app.bench, view?.q ?? 0);
    return true;
  }

  /** What this window showed before a reload, or what was worked on last.
   * @returns {boolean} */
  restore() {
    const view = this.store.view();
    if (view && !view.key) return false;
    return this.reopen(view?.key || this.store.last(), view);
  }

  /** What this window showed of the galley at hand before a reload. */
  restoreView() {
    const { app } = this, view = this.store.view();
    if (!app.g || view?.key !== this.store.key || view.tab === 'book') return;
    app.chosen = new Set(view.chosen ?? []);
    if (view.ms) app.maker.lastMs = Number(view.ms);
    app.go(view.tab);
    if (app.tab === 'desk' && app.bench?.open) app.hand.show(app.bench, view.q);
  }

  /** Forgets a galley, or all.
   * @param {string | null} key */
  clear(key) {
    const { app } = this, now = this.store.key;
    if (key) this.store.drop(key); else this.store.dropAll();
    if (!key || key === now) {
      clearTimeout(this.timer);
      this.timer = undefined;
      this.store.key = '';
      app.maker.reset(null);
      app.clear();
      this.store.keepView({ tab: 'open', key: '' });
    }
    app.go('open');
    app.toast(key ? 'Cleared.' : 'Everything that was kept is cleared.');
  }

  /** Another window has kept other work on this galley. */
  contested() {
    this.notice('Another window works on this galley too and has kept its state. What you do here is not kept until you choose.',
      button('Take what the other window has', () => this.reopen(this.store.key, this.view()), { id: 'takeother' }),
      button('Keep what is here', () => {
        this.store.keep(this.work(), true);
        this.notice(null);
      }, { id: 'keephere' }));
  }

  /** Says something that stays until it is answered.
   * @param {string | null} words @param {...HTMLElement} buttons */
  notice(words, ...buttons) {
    const box = byId('notice');
    box.hidden = words === null;
    put(box, words && el('p', {}, words), buttons.length ? buttons : button('Close', () => this.notice(null)));
  }
}
