// What else can be done: a search, exchangers against cost, what is made for others, the end.

import { fill, make } from './dom.js';
import { viewChanged } from './state.js';

/** @typedef {import('./actions.js').Actions} Actions */
/** @typedef {import('./contract.js').TradeoffTable} TradeoffTable */

/**
 * @param {HTMLElement} panel
 * @param {Actions} actions
 * @returns {import('./state.js').Renderer}
 */
export function restPart(panel, actions) {
  const seconds = make('input', { value: '10', size: 3, inputmode: 'decimal', 'aria-label': 'seconds of the search' });
  const above = make('input', {
    value: '0', size: 3, inputmode: 'decimal', 'aria-label': 'percent above the least cost, at most',
  });
  const button = make('button', {}, 'search'), told = make('p', { role: 'status' }), links = make('ul');
  fill(panel,
    make('details', {}, make('summary', {}, 'Search few exchangers from here'), make('form', {
      class: 'tools', submit: async (/** @type {Event} */ event) => {
        event.preventDefault();
        button.disabled = true;
        told.textContent = `Searching for ${seconds.value} s …`;
        await actions.search(seconds.value.trim(), above.value.trim());
        button.disabled = false;
        told.textContent = '';
      },
    }, make('label', {}, 'for ', seconds, ' s,'),
    make('label', {}, ' at most ', above, ' % above the least cost '), button), told),
    links, make('button', { type: 'button', click: () => actions.close() }, 'Close the desk'));
  return (state, before) => {
    if (!viewChanged(state, before, 'links')) return;
    fill(links, ...state.view.links.map(({ name, text }) =>
      make('li', {}, make('a', { href: name, target: '_blank', rel: 'noopener' }, text))));
  };
}

/**
 * Networks of fewer and fewer exchangers with their costs, each of which can be taken.
 * @param {HTMLElement} panel
 * @param {Actions} actions
 * @returns {import('./state.js').Renderer}
 */
export function tradeoffPart(panel, actions) {
  const seconds = make('input', {
    value: '10', size: 3, inputmode: 'decimal', 'aria-label': 'seconds for exchangers against cost',
  });
  const button = make('button', { 'data-key': 'trade' }, 'search'), told = make('p', { role: 'status' });
  const found = make('div', { class: 'wide' });
  fill(panel, make('summary', { 'data-key': 'tradeoff' }, 'Exchangers against cost'), make('form', {
    class: 'tools', submit: async (/** @type {Event} */ event) => {
      event.preventDefault();
      button.disabled = true;
      fill(found);
      told.textContent = `Searching for ${seconds.value} s …`;
      const table = await actions.tradeoff(seconds.value.trim());
      button.disabled = false;
      told.textContent = table ? table.proved : '';
      if (table) fill(found, tradeoffTable(table, actions));
    },
  }, make('span', {}, 'networks of fewer and fewer exchangers, from here, for '), make('label', {}, seconds, ' s '),
  button), found, told);
  return (state, before) => {
    // Of another case these networks are none.
    if (!before || state.view.texts.case === before.view.texts.case) return;
    fill(found);
    if (!button.disabled) told.textContent = '';
  };
}

/**
 * @param {TradeoffTable} table
 * @param {Actions} actions
 */
function tradeoffTable(table, actions) {
  return make('table', {},
    make('thead', {}, make('tr', {}, ...table.headings.map(word => make('th', { scope: 'col' }, word)), make('td'))),
    make('tbody', {}, ...table.lines.map(({ cells, gesture }, at) => make('tr', {},
      ...table.headings.map((_, place) => make(place ? 'td' : 'th', { scope: !place && 'row' }, cells[place] ?? '')),
      make('td', {}, gesture.kind && make('button', {
        type: 'button', 'data-key': `take network ${at}`, 'aria-label': `take the network of ${cells[0]} exchangers`,
        click: () => actions.do(gesture),
      }, 'take'))))));
}
