// What is folded away below the diagram: all exchangers as a table, and both files as they are saved.

import { fill, make } from './dom.js';
import { viewChanged } from './state.js';

/** @typedef {import('./actions.js').Actions} Actions */
/** @typedef {import('./contract.js').ExchangerRow} ExchangerRow */
/** @typedef {import('./contract.js').View} View */

/** @type {[keyof ExchangerRow, string, boolean][]} what a column has, its heading, whether it is of numbers */
const COLUMNS = [
  ['name', 'exchanger', false], ['hot', 'hot', false], ['cold', 'cold', false], ['duty', 'duty', true],
  ['hot_in', 'hot in', true], ['hot_out', 'hot out', true], ['cold_in', 'cold in', true],
  ['cold_out', 'cold out', true], ['difference', 'least difference', true], ['wanted', 'needed', true],
  ['where', 'pinch', false], ['loss', 'of the excess', true], ['area', 'area', true], ['fault', 'fault', false],
];

/**
 * A part that is folded away is drawn once it is opened, and while it is open with each view that changes it.
 * @param {HTMLElement} place
 * @param {Actions} actions
 * @param {HTMLElement} summary
 * @param {(keyof View)[]} names what of the view it shows
 * @param {(view: View) => HTMLElement} content
 * @returns {import('./state.js').Renderer}
 */
function foldedPart(place, actions, summary, names, content) {
  const details = /** @type {HTMLDetailsElement} */ (place), inside = make('div');
  /** @type {import('./state.js').State | null} */
  let drawn = null;
  const renew = () => {
    const { state } = actions;
    if (details.open && viewChanged(state, drawn, ...names)) fill(inside, content(state.view));
    if (details.open) drawn = state;
  };
  fill(details, summary, inside);
  details.addEventListener('toggle', renew);
  return renew;
}

/**
 * @param {HTMLElement} place
 * @param {Actions} actions
 */
export function tablePart(place, actions) {
  const summary = make('summary', { 'data-key': 'table' }, 'All exchangers as a table');
  return foldedPart(place, actions, summary, ['exchangers', 'units'], ({ exchangers, units }) => {
    const columns = COLUMNS.filter(([name]) => exchangers.some(row => row[name]) || name === 'name');
    return make('div', { class: 'wide' }, make('table', {},
      make('caption', {}, `duties in ${units.heat}, temperatures in ${units.temperature}, differences in `
        + units.difference + (exchangers.some(row => row.area) ? ', areas in m²' : '')),
      make('thead', {}, make('tr', {}, ...columns.map(([, word, number]) =>
        make('th', { scope: 'col', class: number && 'number' }, word)))),
      make('tbody', {}, ...exchangers.map(row => tableRow(row, columns, actions)))));
  });
}

/**
 * @param {ExchangerRow} row
 * @param {[keyof ExchangerRow, string, boolean][]} columns
 * @param {Actions} actions
 */
function tableRow(row, columns, actions) {
  return make('tr', { class: row.fault && 'fault' }, ...columns.map(([name, , number]) => name === 'name'
    ? make('th', { scope: 'row' }, make('button', {
      type: 'button', class: 'link', 'data-key': `row ${row.name}`,
      click: () => actions.choose({ kind: 'exchanger', name: row.name }),
    }, row.name))
    : make('td', { class: number && 'number' }, row[name])));
}

/**
 * Both texts, which can be typed in too: then all that they say is read anew.
 * @param {HTMLElement} place
 * @param {Actions} actions
 */
export function textsPart(place, actions) {
  /** @type {(name: string, text: string, file: string) => HTMLTextAreaElement} */
  const area = (name, text, file) => make('textarea', {
    'data-key': `text ${name}`, 'aria-label': file, spellcheck: 'false', wrap: 'off',
    rows: Math.min(28, text.split('\n').length + 1),
  }, text);
  const summary = make('summary', { 'data-key': 'texts' }, 'The two files as they are saved');
  return foldedPart(place, actions, summary, ['texts', 'files'], ({ texts, files }) => {
    const network = area('network', texts.network, files.network), content = area('case', texts.case, files.case);
    return make('form', {
      class: 'texts', submit: (/** @type {Event} */ event) => {
        event.preventDefault();
        const typed = { case: content.value, network: network.value };
        actions.do({
          kind: 'texts', ...(typed.case !== content.defaultValue && { case: typed.case }),
          ...(typed.network !== network.defaultValue && { network: typed.network }),
        });
      },
    },
    make('div', {}, make('h3', {}, files.case), content), make('div', {}, make('h3', {}, files.network), network),
    make('button', { 'data-key': 'keep texts' }, 'keep what was typed'));
  });
}
