// The desk in words: p X Y T W in force, of the trial and of the best; and what a trial does, in a sentence.
import { tone } from '../../draw/handle.js';
import { parting } from '../../galley/list.js';
import { turnChanges } from '../../galley/measure.js';
import { meaningOf, sentence as refusalWords } from '../../galley/refusals.js';
import { comma, endWords, length, plural, signed } from '../../galley/words.js';
import { el } from '../dom.js';

/**
 * @typedef {import('../../galley/galley.js').Galley} Galley
 * @typedef {import('./bench.js').Bench} Bench
 * @typedef {import('./bench.js').Trial} Trial
 */

const MOST_DOTS = 24, MOST_CHANGES = 5;

/** p X Y T W.
 * @param {any} m */
function cells(m) {
  const told = [['p', m.p], ['X', m.x], ['Y', m.y], ['T', m.t], ['W', m.w]];
  return told.map(([name, value]) => el('span', { class: name }, el('i', {}, name), el('b', {}, comma(value))));
}

/** @param {string} cls @param {any} head @param {...any} body */
const box = (cls, head, ...body) => el('div', { class: `sc ${cls}` }, el('em', {}, head), ...body);

/** @param {string} words */
const note = (words) => el('span', { class: 'ref' }, words);

/** In force, trial, best, and how far above.
 * @param {Bench} bench @param {any} best @param {boolean} making */
export function score(bench, best, making) {
  const name = bench.printed ? `Best after page ${bench.printed}` : 'Best';
  return [
    box('', 'In force', cells(bench.mark)),
    trialBox(bench.trial),
    box('best', name, best?.ok ? cells(best) : note(making ? 'being made…' : 'none')),
    best?.ok && above(bench, best),
  ];
}

/** @param {Trial | null} trial */
function trialBox(trial) {
  if (!trial) return box('try none', 'Trial', note('none: the end in force'));
  const { answer, change } = trial;
  if (answer.ok) return box(`try ${tone(change)}`, ['Trial ', el('strong', {}, signed(change))], cells(answer));
  return box('try no', 'Trial', note(`refused, rule ${answer.number}${answer.place ? ` on page ${answer.place}` : ''}`));
}

/** Turns above the best, a dot each; hollow where the trial takes one away.
 * @param {Bench} bench @param {any} best */
function above({ mark, trial }, best) {
  const m = trial?.answer.ok ? trial.answer : mark, is = m.t - best.t, was = mark.t - best.t;
  const equal = m.w > best.w ? 'As few turns as the best' : 'As good as the best';
  const dots = (count, cls) => Array.from({ length: Math.max(0, count) }, () => el('i', { class: cls }));
  const all = Math.max(is, was) > MOST_DOTS ? null : [dots(Math.min(is, was), null), dots(is - was, 'new'), dots(was - is, 'gone')];
  return el('div', { class: `above ${is > 0 ? 'loud' : 'fine'}` },
    el('b', {}, is > 0 ? `${plural(is, 'turn')} above the best` : equal),
    el('span', { class: 'dots', 'aria-hidden': 'true' }, all));
}

/** What the trial does, or where the page ends.
 * @param {Galley} g @param {Bench} bench @param {number} q */
export function sentence(g, bench, q) {
  const { trial } = bench;
  if (!trial) return `Page ${q} ends ${endWords(g, bench.ends[q - 1])}${q <= bench.printed ? '; it is printed and stays' : ''}.`;
  if (trial.whole && trial.answer.ok) return wholeWords(bench, trial);
  const second = trial.second ? `, page ${q + 1} ${endWords(g, trial.second)}` : '';
  const head = `Page ${q} would end ${endWords(g, trial.end)}${second}.`;
  return `${head} ${trial.answer.ok ? gainWords(g, bench, trial) : refusedWords(trial)}`;
}

/** @param {Trial} trial */
function refusedWords({ answer, measured }) {
  if (!answer.number) return refusalWords(answer);
  const fault = measured.pages[answer.place - 1]?.bad[0];
  return `Refused, rule ${answer.number} on page ${answer.place}: ${meaningOf(answer.number)}${fault ? ` (${fault.short})` : ''}.`;
}

/**
 * The change in turns, with the floats that make it, and in white space.
 * @param {Galley} g @param {Bench} bench @param {Trial} trial
 */
function gainWords(g, bench, trial) {
  const changes = turnChanges(bench.measured, trial.measured).map(({ id, was, is }) => `${id} ${was} → ${is}`);
  const more = changes.length > MOST_CHANGES ? ` and ${changes.length - MOST_CHANGES} more` : '';
  const floats = changes.length ? `: ${changes.slice(0, MOST_CHANGES).join(', ')}${more}` : '';
  const white = trial.answer.w - bench.mark.w;
  const spaces = white ? `; ${length(g, Math.abs(white))} ${white < 0 ? 'less' : 'more'} white space` : '';
  return `${turnsWords(trial.change)}${floats}${spaces}.`;
}

/** @param {number} d */
const turnsWords = (d) => d === 0 ? 'As many turns' : `${plural(Math.abs(d), 'turn')} ${d < 0 ? 'fewer' : 'more'}`;

/** Another list altogether.
 * @param {Bench} bench @param {Trial} trial */
function wholeWords(bench, trial) {
  const q = parting(bench.measured.ends, trial.measured.ends), { p } = trial.answer;
  if (!q) return `${trial.what}: it is the list in force, page for page.`;
  const pages = p !== bench.mark.p ? `, ${p} pages in place of ${bench.mark.p}` : '';
  return `${trial.what}: ${turnsWords(trial.change).toLowerCase()}${pages}; it parts from the list in force on page ${q}.`;
}
