// The desk on the screen: score, overview, film strip, sentence and panels. It is told what to show, and draws what has changed.
import { grip, overlay, tone } from '../../draw/handle.js';
import { staff } from '../../draw/staff.js';
import { drawing, path, text } from '../../draw/svg.js';
import { leafOf } from '../../galley/page.js';
import { leafWord, plural, signed } from '../../galley/words.js';
import { lanes, n, overview, staffHeights, strip } from '../../layout/layout.js';
import { byId, drawn, el, link, put } from '../dom.js';
import { fitLine } from './ends.js';
import { endsPanel, layoutsPanel, pairsPanel, restPanel } from './panels.js';
import { score, sentence } from './score.js';

/**
 * @typedef {import('./hand.js').DeskHand} DeskHand
 * @typedef {import('./hand.js').Sitting} Sitting
 */

/** A page is drawn this much wider than high. */
const SHAPE = 0.63;
const PHONE = 700;

export class DeskView {
  /** @param {HTMLElement} root @param {DeskHand} hand */
  constructor(root, hand) {
    this.root = root;
    this.hand = hand;
    this.film = byId('film');
    this.inner = this.film.querySelector('.in');
    /** @type {Map<number, {el: HTMLElement, svg: string}>} */ this.leaves = new Map();
    /** @type {Map<number, {el: HTMLElement, svg: string}>} */ this.columns = new Map();
    this.over = document.createElementNS('http://www.w3.org/2000/svg', 'svg');
    this.over.setAttribute('class', 'over');
    this.over.setAttribute('aria-hidden', 'true');
    this.rows = 2;
    this.times = { draw: 0, n: 0, worst: 0 };
  }

  /** Sizes for this galley and window; everything is drawn again.
   * @param {any} g */
  fit(g) {
    this.g = g;
    const width = this.film.clientWidth || 1000, tall = innerWidth <= PHONE ? 330 : Math.max(250, Math.min(430, innerHeight - 560));
    const pair = g.sides === 2 ? (width - 92) / 2 : (width - 130) / 2, PW = Math.max(90, Math.min(tall * SHAPE, pair));
    this.Z = strip(g, PW / SHAPE, PW);
    this.pad = width / 2;
    this.width = width;
    this.rows = 2;
    this.leaves.clear();
    this.columns.clear();
    this.legend = '';
    put(this.inner, /** @type {any} */ (this.over));
    put(byId('deskmap'));
  }

  /** The boundary between pages q and q + 1, from the left of the film.
   * @param {any} M @param {number} q */
  boundary(M, q) {
    const page = M.pages[q - 1], left = (page.leaf - M.leaf0) * this.Z.w;
    return this.pad + left + (page.leaf === M.pages[q]?.leaf ? this.Z.w / 2 : this.Z.w);
  }

  /** @param {Sitting} s @param {boolean} [center] */
  draw(s, center = false) {
    const from = performance.now(), { bench, q } = s, { Z } = this, M = bench.trial ? bench.trial.measured : bench.measured;
    this.state = s;
    this.ways = lanes(M, Z);
    this.M = M;
    sized(this.inner, 'width', 2 * this.pad + (M.leaf1 - M.leaf0 + 1) * Z.w);
    if (center) {
      this.film.scrollLeft = this.boundary(M, q) - this.width / 2;
      if (q !== this.lastQ) this.rows = 2;
      this.lastQ = q;
    }
    this.rows = Math.max(this.rows, this.lanesInView());
    this.H = staffHeights(Z, this.rows, true, true);
    sized(this.inner, 'height', Math.ceil(this.H.total));
    this.drawLeaves();
    this.drawOver();
    this.drawMap();
    put(byId('score'), score(bench, s.best, s.making));
    this.drawAct();
    const ms = performance.now() - from;
    this.times = { draw: ms, n: this.times.n + 1, worst: Math.max(this.times.worst, ms) };
  }

  /** The list in force in place of the trial, while it is asked for.
   * @param {boolean} on */
  flick(on) {
    if (!this.state) return;
    const { bench } = this.state, { trial } = bench;
    if (on && trial) {
      bench.trial = null;
      this.draw(this.state);
      bench.trial = trial;
      this.film.classList.add('flick');
    } else if (!on && this.film.classList.contains('flick')) {
      this.film.classList.remove('flick');
      this.draw(this.state);
    }
  }

  /** The leaves in view, and one on each side.
   * @returns {[number, number]} */
  inView() {
    const { M, Z } = this, from = Math.max(M.leaf0, M.leaf0 + Math.floor((this.film.scrollLeft - this.pad) / Z.w) - 1);
    return [from, Math.min(M.leaf1, from + Math.ceil(this.width / Z.w) + 2)];
  }

  /** Lanes that these leaves need: fewer than the whole list, and more only when more come into view. */
  lanesInView() {
    const [from, to] = this.inView();
    let most = 0;
    for (let i = from; i <= to; i++) for (const A of this.ways.over.get(i) ?? []) most = Math.max(most, A.lane + 1);
    return most;
  }

  /** The hand leafs through the film. */
  scrolled() {
    if (this.lanesInView() > this.rows) this.draw(this.state); else this.drawLeaves();
  }

  drawLeaves() {
    const { M, Z, ways, g } = this, { q, bench } = this.state, [from, to] = this.inView(), moved = this.moved();
    for (const [i, leaf] of this.leaves) {
      if (i >= from && i <= to) continue;
      leaf.el.remove();
      this.leaves.delete(i);
    }
    for (let i = from; i <= to; i++) {
      const leaf = this.leaves.get(i) ?? this.newLeaf(i);
      const options = { rows: this.rows, anyBad: true, anyOver: true, moved, printed: bench.printed, more: this.grips(i) };
      const { svg } = staff(g, M, ways, i, Z, options);
      if (svg !== leaf.svg) {
        leaf.el.replaceChildren(drawn(svg));
        leaf.svg = svg;
      }
      leaf.el.classList.toggle('far', i !== leafOf(g, q) && i !== leafOf(g, q + 1));
    }
  }

  /** @param {number} i */
  newLeaf(i) {
    const leaf = { el: el('div', { class: 'leaf' }), svg: '' };
    leaf.el.style.left = `${this.pad + (i - this.M.leaf0) * this.Z.w}px`;
    this.inner.insertBefore(leaf.el, this.over);
    this.leaves.set(i, leaf);
    return leaf;
  }

  /** Lines and floats that stand elsewhere than in the list in force. */
  moved() {
    const { bench } = this.state, { trial } = bench;
    if (!trial || trial.whole) return null;
    const floats = new Set(), pairs = [[bench.ends[trial.q - 1], trial.end]];
    if (trial.second) pairs.push([bench.ends[trial.q], trial.second]);
    const lines = pairs.map(([was, is]) => {
      for (const s of [1, 2]) for (let k = Math.min(was[s], is[s]) + 1; k <= Math.max(was[s], is[s]); k++) floats.add(' FT'[s] + k);
      return /** @type {[number, number]} */ ([Math.min(was[0], is[0]), Math.max(was[0], is[0])]);
    });
    return { lines, floats };
  }

  /** Handles at rest, of the other pages of a leaf.
   * @param {number} i */
  grips(i) {
    const { q, gains, pair, bench } = this.state, other = (page) => !page.last && page.q !== q && page.q > bench.printed;
    const drawGrip = (page) => grip(this.g, page, this.Z, this.H.y0, gains.get(page.q) ?? 0, pair && page.q === q + 1);
    return (this.M.byLeaf.get(i) ?? []).filter(other).map(drawGrip).join('');
  }

  drawOver() {
    const { M, Z, H, g } = this, { bench, q, bestEnds } = this.state, { trial } = bench;
    const a = leafOf(g, q), w = n((leafOf(g, q + 1) - a + 1) * Z.w), h = n(H.total);
    this.over.style.left = `${this.pad + (a - M.leaf0) * Z.w}px`;
    for (const [name, value] of [['width', w], ['height', h], ['viewBox', `0 0 ${w} ${h}`]]) this.over.setAttribute(name, value);
    const state = { ok: !trial || trial.answer.ok, change: trial ? trial.change : 0, trial: !!trial, whole: !!trial?.whole,
      force: bench.ends[q - 1], star: bestEnds?.[q - 1] ?? null };
    const marks = q <= bench.printed ? '' : overlay(g, M, Z, H.y0, q, this.accepted(q), state);
    this.over.replaceChildren(...drawn(`<svg>${marks}</svg>`).childNodes);
  }

  /** One accepted end a line: that with the fewest turns.
   * @param {number} q */
  accepted(q) {
    const { bench, pair } = this.state, now = bench.trial && !bench.trial.whole ? bench.trial.end : bench.ends[q - 1];
    const { byLine } = pair ? bench.pairs(q) : bench.scan(q);
    return [...byLine.keys()].sort((a, b) => a - b).map((i) => fitLine(byLine.get(i), now));
  }

  drawMap() {
    const { M, g } = this, { q, gains, losses, bench } = this.state, map = byId('deskmap'), total = M.leaf1 - M.leaf0 + 1;
    const Z = overview(g, total, innerWidth <= PHONE ? 1 : 2.4), ways = lanes(M, Z), rows = Math.min(4, ways.lanes);
    this.mapRows = total === this.mapTotal ? Math.max(this.mapRows ?? 0, rows) : rows;
    this.mapTotal = total;
    for (const [i, column] of this.columns) {
      if (i <= M.leaf1) continue;
      column.el.remove();
      this.columns.delete(i);
    }
    for (let i = M.leaf0; i <= M.leaf1; i++) {
      const column = this.columns.get(i) ?? this.newColumn(i), marks = this.mapMarks(i, Z, gains, losses);
      const focus = [q, q + 1].filter((one) => leafOf(g, one) === i);
      const sum = `${leafSum(M, ways, i)} ${this.mapRows} ${bench.printed} ${focus} ${marks}`;
      if (sum === column.svg) continue;
      column.svg = sum;
      const { svg } = staff(g, M, ways, i, Z, { rows: this.mapRows, focus, printed: bench.printed });
      column.el.replaceChildren(drawn(svg), drawn(drawing('gl', Z.w, 17, marks)), el('i', {}, i));
    }
    const here = this.columns.get(leafOf(g, q));
    if (this.mapAt !== q && here && map.scrollWidth > map.clientWidth) {
      map.scrollLeft = here.el.offsetLeft - map.offsetLeft - map.clientWidth / 2 + Z.w;
    }
    this.mapAt = q;
    this.drawLegend();
  }

  /** @param {number} i */
  newColumn(i) {
    const column = { el: el('a', { href: '#film', tabindex: -1, 'data-leaf': i, 'aria-label': `${leafWord(this.g)} ${i}` }), svg: '' };
    column.el.addEventListener('click', (event) => {
      event.preventDefault();
      const pages = this.M.byLeaf.get(i) ?? [], box = column.el.getBoundingClientRect();
      const right = event.clientX > box.left + box.width / 2;
      if (pages.length) this.hand.select(Math.min(this.hand.bench.p - 1, (right ? pages[pages.length - 1] : pages[0]).q));
    });
    byId('deskmap').append(column.el);
    this.columns.set(i, column);
    return column;
  }

  /** ▲ where another end has fewer turns, +2 where turns are lost for good. */
  mapMarks(i, Z, gains, losses) {
    return (this.M.byLeaf.get(i) ?? []).map((page) => {
      const x = Z.x(page.folio) + Z.PW / 2, lost = losses.get(page.q);
      const gain = gains.get(page.q) < 0 ? path('gn', `M${n(x - 3.5)} 7l3.5 -6l3.5 6z`) : '';
      return gain + (lost ? text('ls', x, 16, `+${lost.turns}`) : '');
    }).join('');
  }

  drawLegend() {
    const { gains, losses, scanned, slow, bench, best } = this.state, { hand } = this;
    const sum = `${[...gains]} ${[...losses.values()].map((one) => one.words)} ${scanned} ${slow} ${bench.mark.t} ${best?.t}`;
    if (sum === this.legend) return;
    this.legend = sum;
    const page = (q) => link(`page ${q}`, () => hand.select(q), { 'data-go': q });
    const more = (all) => all.length > 8 ? ` and ${all.length - 8} more` : '';
    const some = (all, told) => [all.slice(0, 8).flatMap((one, k) => [k ? ', ' : '', told(one)]), more(all)];
    const better = [...gains].filter(([, change]) => change < 0).map(([q]) => q), lost = [...losses.values()];
    const none = scanned ? 'No other end of one page alone has fewer turns' : 'Trying every end of every page…';
    const gain = better.length ? [el('b', { class: 'g' }, '▲'), ' another end has fewer turns: ', some(better, page)] : none;
    const time = slow > 1 ? ` (${(slow / 1000).toFixed(1)} s a step)` : '', find = slow && best?.ok && bench.mark.t > best.t;
    const ask = find ? [' · ', link('find where turns are lost for good', () => hand.findLosses(true), { 'data-find': 1 }), time] : '';
    const told = (one) => [el('b', { class: 'l' }, `+${one.turns}`), ' with the end of ', page(one.page)];
    const loss = lost.length ? [' · turns lost for good: ', some(lost, told)] : ask;
    put(byId('legend'), gain, loss, ` · a column is a ${leafWord(this.g)}`);
  }

  drawAct() {
    const { bench, q, pair } = this.state, { trial } = bench, words = sentence(this.g, bench, q), say = byId('say');
    if (say.textContent !== words) {
      say.textContent = words;
      say.className = trial && !trial.answer.ok ? 'no' : '';
    }
    byId('cancel').disabled = !trial;
    const commit = byId('commit');
    commit.disabled = !trial?.answer.ok;
    commit.className = `main ${trial ? tone(trial.change) : ''}`;
    put(commit, 'Commit ', trial?.answer.ok && trial.change ? signed(trial.change) : '', el('kbd', {}, 'Enter'));
    byId('prev').disabled = q <= bench.printed + 1;
    byId('next').disabled = q >= bench.p - 1;
    byId('pair').setAttribute('aria-pressed', String(pair));
    const { a, c } = bench.bounds(q), now = trial ? trial.end : bench.ends[q - 1];
    const told = { label: `End of page ${q}`, valuemin: a[0], valuemax: c[0], valuenow: now[0], valuetext: words };
    for (const [name, value] of Object.entries(told)) this.film.setAttribute(`aria-${name}`, String(value));
  }

  /** What does not change while a hand moves.
   * @param {Sitting} s */
  drawPanels(s) {
    const { bench, q, pair, bestEnds } = s, { hand } = this, star = bestEnds?.[q - 1] ?? null, pick = (one) => hand.pick(one);
    put(byId('ends'), pair ? pairsPanel(bench, q, star, pick) : endsPanel(bench, q, star, pick));
    put(byId('rests'), restPanel(bench, q, s.rests, s.busy, s.slow, (end) => hand.rest(end)));
    const desk = bench.marking ? ': above the 64 of the engine’s desk, so each list is marked' : ', on the engine’s desk';
    byId('lmode').textContent = `${bench.p} pages${desk}`;
    byId('undo').disabled = !bench.canUndo;
    byId('redo').disabled = !bench.canRedo;
    byId('print').setAttribute('aria-pressed', String(bench.printed > 0));
    const fixed = `${plural(bench.printed, 'page')} printed: the desk does not touch them.`;
    byId('printed').textContent = bench.printed ? fixed : 'No page is printed.';
    const used = new Set(bench.layouts().map((one) => one.name));
    let k = 1;
    while (used.has(`list-${String(k).padStart(2, '0')}`)) k++;
    byId('name').placeholder = `list-${String(k).padStart(2, '0')}`;
    put(byId('lays'), layoutsPanel(bench, (name) => hand.back(name), (name) => hand.drop(name)));
  }

  /** While a hand moves only the chip that is on changes.
   * @param {Sitting} s */
  markChips({ bench, q }) {
    const { trial } = bench, end = (trial?.end ?? bench.ends[q - 1]).join(' ');
    const both = trial?.second ? `${end} ${trial.second.join(' ')}` : end;
    for (const chip of this.root.querySelectorAll('.chip')) {
      const own = chip.getAttribute('data-end') ?? chip.getAttribute('data-rest');
      chip.classList.toggle('on', own === end || own === both);
    }
  }
}

/**
 * Sets a size where it is another one, since that lays the page out again.
 * @param {HTMLElement} element @param {'width' | 'height'} side @param {number} size
 */
function sized(element, side, size) {
  const value = `${size}px`;
  if (element.style[side] !== value) element.style[side] = value;
}

/** What the overview of a leaf depends on.
 * @param {any} M @param {any} ways @param {number} i */
function leafSum(M, ways, i) {
  const pages = (M.byLeaf.get(i) ?? []).map((page) => `${page.q} ${page.a} ${page.b} ${page.bad.length}`);
  const arcs = (ways.over.get(i) ?? []).map((A) => `${A.F.id} ${A.lane} ${A.i0} ${A.i1}`);
  return `${pages}|${arcs}|${M.first?.page === M.byLeaf.get(i)?.[0]?.q}`;
}
