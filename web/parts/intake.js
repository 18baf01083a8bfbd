// What comes in: files, pasted text, samples, what `barleychime show` put inside. What cannot be read is said and changes nothing.
import { recordAt } from '../galley/galley.js';
import { readList } from '../galley/list.js';
import { sentence } from '../galley/refusals.js';
import { fromBase64, LONGEST_FILE, sort } from './files.js';

/**
 * @typedef {import('./app.js').App} App
 * @typedef {import('./files.js').Sorted} Sorted
 */

/** More lists than this open as a class. */
const FEW = 2;

/** @param {App} app @param {import('./files.js').File[]} files */
export function take(app, files) {
  const sorted = files.map(sort), of = (kind) => /** @type {any[]} */ (sorted.filter((file) => file.kind === kind));
  const galleys = of('galley'), lists = of('list');
  const fault = faultOf(app, sorted, galleys, lists);
  if (fault) return app.toast(fault);
  if (galleys.length > 1) return app.openBook(galleys);
  if (galleys.length && !opened(app, galleys[0])) return undefined;
  for (const list of lists) app.addList(list.name, list.text);
  begin(app, lists.map((list) => list.name));
  app.go(app.lists.length > FEW ? 'class' : 'show');
}

/**
 * Why these files cannot be taken, or nothing.
 * @param {App} app @param {Sorted[]} sorted @param {any[]} galleys @param {any[]} lists
 */
function faultOf(app, sorted, galleys, lists) {
  const bad = sorted.find((file) => file.kind === 'refused');
  if (bad?.kind === 'refused') return `${bad.name} is not read: ${bad.why}`;
  if (galleys.length > 1 && lists.length) return 'Several galleys are a book, and lists are for one galley: open them apart.';
  if (!galleys.length && !app.g) return 'First a galley, then lists for it.';
  if (galleys.length || lists.length !== 1) return '';
  const list = readList(lists[0].text, app.g.width);
  return list.ok === true ? '' : `${lists[0].name} is neither a galley nor a list. ${list.why}`;
}

/**
 * Opens a galley; one that is refused does not take the place of what is open.
 * @param {App} app @param {{name: string, bytes: Uint8Array}} galley
 */
function opened(app, { name, bytes }) {
  const told = app.engine.forecast(bytes);
  if (!told.ok && app.g) {
    app.keeper.notice(`${name} is refused: ${sentence(told)} It is ${recordAt(bytes, told.place)}. What is open stays.`);
    return false;
  }
  app.openGalley(name, bytes);
  if (told.ok) app.keeper.resume(); else app.go('show');
  return told.ok;
}

/**
 * The first accepted of these lists is drawn, and lies on the desk unless work is kept there.
 * @param {App} app @param {string[]} names
 */
function begin(app, names) {
  const lists = app.lists.filter((list) => names.includes(list.name)), first = lists.find((list) => list.mark.ok) ?? lists[0];
  if (!first) return;
  app.chosen = new Set([first.name]);
  if (first.mark.ok && !app.keeper.resumed) app.bench.begin(first.words, first.name);
}

/** @param {App} app @param {FileList | null} list */
export async function readFiles(app, list) {
  const files = [...(list ?? [])], long = files.find((file) => file.size > LONGEST_FILE);
  if (long) return app.toast(`${long.name} is not read: it is longer than any galley or list.`);
  try {
    take(app, await Promise.all(files.map(async (file) => ({ name: file.name, bytes: new Uint8Array(await file.arrayBuffer()) }))));
  } catch (error) { app.toast(`The files could not be read: ${error.message}`); }
}

/** @param {App} app @param {any} sample */
export function openSample(app, sample) {
  if (sample.galleys) return app.openBook(sample.galleys.map(({ name, galley }) => ({ name, bytes: fromBase64(galley) })));
  const bytes = fromBase64(sample.galley), best = sample.best ? readList(sample.best, app.engine.width(bytes)) : null;
  if (!app.openGalley(sample.name, bytes, best?.ok ? best.words : null)) return app.go('show');
  app.keeper.resume();
  for (const list of sample.lists) app.addList(list.name, list.text);
  begin(app, sample.lists.map((list) => list.name));
  app.go(app.lists.length > FEW ? 'class' : 'show');
}
