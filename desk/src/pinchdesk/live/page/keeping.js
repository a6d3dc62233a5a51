// Where the case of a table is kept: asked for once, before the first change.

import { fill, make } from './dom.js';

/** @typedef {import('./actions.js').Actions} Actions */

/**
 * @param {HTMLElement} place
 * @param {Actions} actions
 * @returns {() => Promise<boolean>} asks, and says whether the files are kept then
 */
export function keepingPart(place, actions) {
  const dialog = /** @type {HTMLDialogElement} */ (place);
  const field = make('input', {
    size: 32, autocomplete: 'off', spellcheck: 'false', 'aria-label': 'name of the case',
    'data-key': 'name of the case',
  });
  const others = make('div', { class: 'tools' }), told = make('p', { class: 'fault', role: 'alert' });
  fill(dialog, make('h2', { id: 'keeping-title' }, 'Where is the case kept?'),
    make('p', {}, 'The table is only read. The case that was made of it, and the network, are kept in two files '
      + 'beside the table, and saved with each step.'),
    make('form', { class: 'keeping', submit: (/** @type {Event} */ event) => keep(event) },
      make('label', {}, 'name of the case ', field), others, told,
      make('div', { class: 'tools' }, make('button', { 'data-key': 'keep the case' }, 'keep it there'),
        make('button', { type: 'button', 'data-key': 'keep nothing', click: () => dialog.close() }, 'not now'))));

  /** @param {Event} event */
  async function keep(event) {
    event.preventDefault();
    const refused = await actions.keep(field.value.trim());
    told.textContent = refused ? `⚠ ${refused}` : '';
    if (refused) field.focus();
    else dialog.close();
  }

  return () => new Promise(kept => {
    const { offered } = actions.state.view.files;
    [field.value] = offered;
    told.textContent = '';
    fill(others, ...offered.map(name => make('button', {
      type: 'button', click: () => { field.value = name; field.focus(); },
    }, name)));
    dialog.addEventListener('close', () => kept(!actions.state.view.files.offered.length), { once: true });
    dialog.showModal();
    field.select();
  });
}
