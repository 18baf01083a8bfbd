// Pointer, touch and keys to what the hand does.
import { byId, el, put } from '../dom.js';

/** @typedef {import('./hand.js').DeskHand} DeskHand */

const KEYS = [
  ['↑ ↓', 'one line fewer, one line more on the page; floats follow where that end is accepted so'],
  ['Shift ↑ ↓', 'to the next end that is accepted'],
  ['→ ←', 'the last figure to the next page; the next page’s first one back; the lines follow to the best accepted end'],
  ['Shift → ←', 'the same for tables'],
  ['Alt with any arrow', 'nothing follows: lines or floats alone'],
  ['2', 'two neighbouring ends together, or one again'],
  ['B', 'the best of this page’s ends'],
  ['Enter, Esc', 'commit, cancel'],
  ['[ ] or PageUp PageDown', 'end of the page before, of the next page'],
  ['Home, End', 'the first end, the last'],
  ['Space, held', 'the list in force in place of the trial'],
  ['N', 'next page end with fewer turns to be had, or with which turns are lost'],
  ['R', 'best from here: this end and the pages before stay, the rest is made best'],
  ['P', 'pages up to this end are printed and stay, or none'],
  ['Ctrl Z, Ctrl Shift Z', 'undo, redo'],
  ['S, W', 'save under a name, write the list to a file'],
];

/** Shows all keys. */
export function keysOf() {
  put(byId('dtitle'), 'Keys at the desk');
  put(byId('dbody'), el('table', {}, KEYS.map(([keys, words]) => el('tr', {}, el('th', { scope: 'row' }, keys), el('td', {}, words)))));
  byId('dialog').showModal();
}

/** What a key does, or nothing.
 * @param {DeskHand} hand @param {KeyboardEvent} event @returns {(() => void) | undefined} */
function action(hand, event) {
  const { key, shiftKey, altKey } = event, { q } = hand.s, stream = shiftKey ? 2 : 1;
  if (event.ctrlKey || event.metaKey) {
    const letter = key.toLowerCase();
    return letter === 'z' ? () => hand.step(shiftKey) : letter === 'y' ? () => hand.step(true) : undefined;
  }
  /** @type {Record<string, () => void>} */
  const does = {
    ArrowUp: () => shiftKey ? hand.hop(-1) : hand.lines(-1, !altKey), ArrowDown: () => shiftKey ? hand.hop(1) : hand.lines(1, !altKey),
    ArrowRight: () => hand.floats(stream, -1, !altKey), ArrowLeft: () => hand.floats(stream, 1, !altKey),
    Enter: () => hand.commit(), Escape: () => hand.cancel(),
    '[': () => hand.select(q - 1), ']': () => hand.select(q + 1), PageUp: () => hand.select(q - 1), PageDown: () => hand.select(q + 1),
    Home: () => hand.select(hand.within(1)), End: () => hand.select(hand.bench.p - 1),
    2: () => hand.togglePair(), b: () => hand.pageBest(), n: () => hand.nextHint(), r: () => hand.rest(), p: () => hand.togglePrinted(),
    w: () => hand.write(), s: () => byId('name').focus(), '?': () => keysOf(),
  };
  return Object.hasOwn(does, key) ? does[key] : does[key.length === 1 ? key.toLowerCase() : ''];
}

/** @param {DeskHand} hand */
function listenToKeys(hand) {
  const { view, root } = hand;
  document.addEventListener('keydown', (event) => {
    const target = /** @type {HTMLElement} */ (event.target);
    if (!hand.bench?.open || root.hidden || root.closest('[hidden]') || document.querySelector('dialog[open]')) return;
    if (target.matches('input,textarea,select')) {
      if (event.key === 'Escape') view.film.focus({ preventScroll: true });
      return;
    }
    if (target.matches('button,a') && (event.key === 'Enter' || event.key === ' ')) return;
    if (event.key === ' ' && target === view.film) {
      event.preventDefault();
      if (!event.repeat) view.flick(true);
      return;
    }
    const does = action(hand, event);
    if (!does) return;
    event.preventDefault();
    does();
  });
  document.addEventListener('keyup', (event) => { if (event.key === ' ') view.flick(false); });
}

/** @param {DeskHand} hand */
function listenToButtons(hand) {
  const { view } = hand, on = (id, does) => byId(id).addEventListener('click', () => {
    does();
    if (!document.querySelector('dialog[open]')) view.film.focus({ preventScroll: true });
  });
  on('prev', () => hand.select(hand.s.q - 1));
  on('next', () => hand.select(hand.s.q + 1));
  on('commit', () => hand.commit());
  on('cancel', () => hand.cancel());
  on('undo', () => hand.step(false));
  on('redo', () => hand.step(true));
  on('pagebest', () => hand.pageBest());
  on('pair', () => hand.togglePair());
  on('print', () => hand.togglePrinted());
  on('rest', () => hand.rest());
  on('makebest', () => hand.makeBest());
  on('write', () => hand.write());
  on('help', () => keysOf());
  byId('saver').addEventListener('submit', (event) => {
    event.preventDefault();
    hand.save();
  });
  hand.root.addEventListener('dblclick', (event) => {
    if (/** @type {Element} */ (event.target).closest('.chip[data-end],.hit') && hand.bench.trial?.answer.ok) hand.commit();
  });
}

/**
 * The line whose distance is nearest to that of the pointer; an accepted one within 4 px first.
 * @param {DeskHand} hand @param {number} y @param {boolean} alone
 */
function dragTo(hand, y, alone) {
  const { drag, bench } = hand, { q, pair } = hand.s, [heights, least] = bench.g.sums[0];
  const at = (i) => (heights[i] + least[i]) * hand.view.Z.scale;
  const want = at(drag.end[0]) + (y - drag.y), { a, c } = bench.bounds(q), { byLine } = pair ? bench.pairs(q) : bench.scan(q);
  let i = a[0], near = 4;
  while (i < c[0] && Math.abs(at(i + 1) - want) <= Math.abs(at(i) - want)) i++;
  if (!alone) {
    for (const line of byLine.keys()) {
      const off = Math.abs(at(line) - want);
      if (off >= near) continue;
      near = off;
      i = line;
    }
  }
  if (i !== hand.now()[0]) hand.toLine(i, !alone, drag.end);
}

/** @param {DeskHand} hand */
function listenToDrag(hand) {
  const { film } = hand.view;
  film.addEventListener('pointerdown', (event) => {
    const target = /** @type {Element} */ (event.target), grip = target.closest('.grip');
    if (event.button) return;
    if (grip) return hand.select(Number(grip.getAttribute('data-q')));
    if (!target.closest('[data-drag]')) return;
    event.preventDefault();
    film.focus({ preventScroll: true });
    film.setPointerCapture(event.pointerId);
    hand.drag = { y: event.clientY, end: [...hand.now()], last: event.clientY, alone: false, frame: 0 };
  });
  film.addEventListener('pointermove', (event) => {
    const { drag } = hand;
    if (!drag) return;
    drag.last = event.clientY;
    drag.alone = event.altKey;
    drag.frame ||= requestAnimationFrame(() => {
      drag.frame = 0;
      if (hand.drag === drag) dragTo(hand, drag.last, drag.alone);
    });
  });
  // The handle is drawn again while it moves, so touch-action alone does not keep the page from scrolling.
  film.addEventListener('touchstart', (event) => {
    if (/** @type {Element} */ (event.target).closest('[data-drag]')) event.preventDefault();
  }, { passive: false });
  film.addEventListener('pointerup', (event) => {
    if (!hand.drag) return;
    dragTo(hand, event.clientY, event.altKey);
    hand.drag = null;
  });
  film.addEventListener('pointercancel', () => { hand.drag = null; });
}

/** @param {DeskHand} hand */
function listenToFilm(hand) {
  const { view } = hand, { film } = view;
  film.addEventListener('click', (event) => {
    const target = /** @type {Element} */ (event.target), flip = target.closest('.flip'), hit = target.closest('.hit');
    if (hit) return hand.toLine(Number(hit.getAttribute('data-i')), !event.altKey);
    if (!flip) return;
    const [s, k, side] = ['data-s', 'data-f', 'data-side'].map((name) => Number(flip.getAttribute(name))), there = side === 1;
    const { a, c } = hand.bench.bounds(hand.s.q);
    let to = there ? k : k - 1;
    while (to > a[s] && to < c[s] && !hand.bench.g.streams[s][to - 1].end) to += there ? 1 : -1;
    hand.floats(s, there ? 1 : -1, !event.altKey, to);
  });
  let frame = 0, wide = 0;
  film.addEventListener('scroll', () => {
    if (view.M) frame ||= requestAnimationFrame(() => {
      frame = 0;
      view.scrolled();
    });
  }, { passive: true });
  addEventListener('resize', () => {
    clearTimeout(wide);
    wide = window.setTimeout(() => {
      if (!hand.bench?.open || !film.clientWidth || film.clientWidth === view.width) return;
      view.fit(hand.bench.g);
      hand.paint(true);
    }, 120);
  });
}

/** @param {DeskHand} hand */
export function listenTo(hand) {
  listenToButtons(hand);
  listenToKeys(hand);
  listenToDrag(hand);
  listenToFilm(hand);
}
