// With which page end turns are lost for good: the best list after the first q pages has more turns than the best after q - 1.
import { lostWith } from './explain.js';
import { toEnds } from './list.js';
import { measure } from './measure.js';

/**
 * @typedef {import('./galley.js').Galley} Galley
 * @typedef {import('./explain.js').Lost} Lost
 * @typedef {{ok: boolean, t?: number, list?: ArrayLike<number>}} Answer
 */

/**
 * The best never gets better as more pages are kept, so where it is equal at both ends of a stretch it is equal between, and halving
 * finds every page that loses.
 * @param {Galley} g @param {number[][]} ends of an accepted list
 * @param {(pages: number) => Promise<Answer>} bestAfter the best list that begins with so many of its pages
 * @param {() => boolean} [wanted] @returns {Promise<Lost[] | null>} null where it is not wanted any more
 */
export async function lostForGood(g, ends, bestAfter, wanted = () => true) {
  const known = new Map(), p = ends.length;
  /** @param {number} q */
  const after = async (q) => {
    if (!known.has(q)) known.set(q, q === p ? measure(g, ends) : await bestMeasured(q));
    return known.get(q);
  };
  let broken = false;
  const bestMeasured = async (q) => {
    const made = await bestAfter(q);
    if (made.ok) return measure(g, toEnds(made.list, g.width));
    broken = true;                      // the list itself begins so: only what was stopped has no answer
    return null;
  };
  const out = /** @type {Lost[]} */ ([]);
  const between = async (low, high) => {
    const before = await after(low), then = await after(high);
    if (!wanted() || !before || !then || before.T === then.T) return;
    if (high - low === 1) {
      out.push(lostWith(g, high, ends[high - 1], before, then));
      return;
    }
    const middle = (low + high) >> 1;
    await between(low, middle);
    await between(middle, high);
  };
  await between(0, p);
  return wanted() && !broken ? out : null;
}
