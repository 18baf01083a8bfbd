// The first view: files, pasted text, samples, and what this browser keeps.
import { byId, button, el, link, put } from './dom.js';
import { plural } from '../galley/words.js';

/** @typedef {import('./app.js').App} App */

/** @param {App} app */
export function openView(app) {
  put(byId('view-open'), el('div', { class: 'open' }, files(app), inside(app), lists(app), kept(app)));
}

/** @param {App} app */
function files(app) {
  const choose = el('input', { id: 'files', type: 'file', multiple: true, class: 'vh', onchange: (e) => app.files(e.target.files) });
  const paste = el('textarea', { id: 'paste', rows: 6, 'aria-label': 'galley or list as text', spellcheck: 'false',
    placeholder: 'GS 30 40 2 4 1 1 1\nTL 10 0 0 1\n…\nED' });
  const read = () => app.take([{ name: 'pasted', bytes: new TextEncoder().encode(paste.value) }]);
  return el('section', {},
    el('h2', {}, 'A galley, and lists for it'),
    el('div', { class: 'drop' }, el('p', {}, 'Drop files here, or'),
      el('p', {}, el('label', { class: 'btn ui' }, 'choose files', choose)),
      el('p', { class: 'sub' }, 'A galley in bytes or in text; lists as ', el('code', {}, 'make'), ' prints them, plain lines or CSV. ',
        'Many lists at once are a class, several galleys a book. Nothing leaves this page.')),
    el('h2', {}, 'Or paste one'), paste, el('p', {}, button('Read it', read, { id: 'readpaste' })));
}

/** @param {App} app */
function inside(app) {
  const row = (sample, k) => el('li', {},
    link(el('b', {}, sample.name), () => app.sample(sample), { 'data-sample': k }), el('br'),
    el('span', { class: 'sub' }, sample.about ?? '', sample.lists.length ? ` · ${plural(sample.lists.length, 'list')}` : ''));
  return el('section', {}, el('h2', {}, 'Samples'), el('ul', { class: 'ui' }, app.inside.map(row)));
}

/** @param {App} app */
function lists(app) {
  if (!app.lists.length) return null;
  const row = (list) => el('li', {},
    el('label', {}, el('input', { type: 'checkbox', checked: app.chosen.has(list.name), 'data-choose': list.name,
      onchange: (e) => app.choose(list.name, e.target.checked) }), ' ', list.name), ' ',
    el('span', { class: 'soft' }, list.mark.ok ? `T ${list.mark.t}` : `R ${list.mark.number} ${list.mark.place}`), ' ',
    list.mark.ok && link('to the desk', () => app.toDesk(list.name), { 'data-desk': list.name }));
  return el('section', {}, el('h2', {}, `Lists of ${app.name}`), el('ul', { class: 'ui' }, app.lists.map(row)),
    el('p', { class: 'sub' }, 'Those that are ticked are drawn above the best.'));
}

/** @param {App} app */
function kept(app) {
  const all = app.store.all();
  if (!all.length) return null;
  const row = ({ key, name, at, lists: count }) => el('li', {},
    link(name, () => app.reopen(key)), ' ',
    el('span', { class: 'soft' }, `${plural(count, 'list')}, ${new Date(at).toLocaleString()}`), ' ',
    link('clear', () => app.clearKept(key), { 'aria-label': `clear what is kept of ${name}` }));
  return el('section', {}, el('h2', {}, 'Kept in this browser'), el('ul', { class: 'ui kept' }, all.map(row)),
    el('p', { class: 'sub' }, link('Clear everything that is kept', () => app.clearKept(null), { id: 'forget' })));
}
