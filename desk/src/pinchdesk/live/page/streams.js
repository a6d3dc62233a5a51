// The table of streams, utilities and forbidden matches: each cell is typed in place, in the units of the case.

import { fill, keyed, make } from './dom.js';
import { changed, viewChanged } from './state.js';

/** @typedef {import('./actions.js').Actions} Actions */
/** @typedef {import('./contract.js').Mark} Mark */
/** @typedef {import('./contract.js').StreamRow} StreamRow */
/** @typedef {import('./contract.js').UtilityRow} UtilityRow */
/** @typedef {import('./contract.js').ForbidRow} ForbidRow */
/** @typedef {import('./contract.js').View} View */
/** @typedef {import('./state.js').State} State */
/** @typedef {import('./dom.js').Child} Child */

/** What can be added: the words of its fields, and which of them are chosen from a list. */
const FORMS = {
  stream: ['name', 'side', 'supply', 'target', 'flow', 'load', 'contribution'],
  utility: ['name', 'side', 'level', 'price', 'least', 'most', 'contribution'],
  forbid: ['hot', 'cold'],
};
/** @type {Record<string, string>} */
const WORDS = { flow: 'CP', contribution: 'own ΔT', least: 'at least', most: 'at most' };
const TITLES = { stream: 'a stream', utility: 'a utility', forbid: 'a forbidden match' };

export class StreamsPart {
  /**
   * @param {HTMLElement} panel
   * @param {Actions} actions
   */
  constructor(panel, actions) {
    this.panel = panel;
    this.actions = actions;
    /** What was typed last, and in which cell: where it is refused it stays there. */
    this.typed = { key: '', text: '' };
    this.opened = '';
    /** @type {Map<string, string>} what was begun in the forms, by their fields */
    this.begun = new Map();
    /** @type {{kind: string, refusal: import('./contract.js').Refusal | null}} what was refused last of a form */
    this.refused = { kind: '', refusal: null };
    /** @type {Set<string>} the streams whose segments are shown */
    this.unfolded = new Set();
    /** How long the longest name is. */
    this.longest = 0;
    /** @type {Map<string, string>} what is wrong in a cell */
    this.wrong = new Map();
    this.heading = make('h2', { id: 'streams-title' });
    this.streams = make('div', { class: 'wide' });
    this.utilities = make('div', { class: 'wide' });
    this.forbids = make('div');
    this.fault = make('div');
    this.forms = make('div', { class: 'adders' });
    fill(panel, this.heading, this.streams, this.utilities, this.forbids, this.fault, this.forms);
  }

  /** @type {import('./state.js').Renderer} */
  render = (state, before) => {
    const { view } = state, { temperature, flow, heat, difference } = view.units;
    const cells = before === null || this.marked(state) || changed(state, before, 'refusal') && this.typed.key !== ''
      || viewChanged(state, before, 'units');
    this.longest = Math.max(...[...view.streams, ...view.utilities].map(source => source.name.length), 3);
    if (cells || viewChanged(state, before, 'streams')) {
      fill(this.heading, 'Streams ', make('small', {}, `${temperature}, ${flow}, ${heat}`));
      fill(this.streams, this.streamTable(view));
    }
    if (cells || viewChanged(state, before, 'streams', 'utilities')) fill(this.utilities, this.utilityTable(view));
    this.utilities.hidden = !view.utilities.length;
    if (viewChanged(state, before, 'forbids')) fill(this.forbids, this.forbidList(view));
    if (cells) {
      fill(this.fault, ...[...this.wrong.values()].slice(0, 1).map(text =>
        make('p', { class: 'fault', id: 'cell-fault' }, `⚠ ${text}`)));
    }
    if (changed(state, before, 'refusal') || viewChanged(state, before, 'streams', 'utilities', 'units')) {
      fill(this.forms, ...this.adders(view, difference));
    }
  };

  /**
   * Takes what is wrong in cells, and says whether it is another than before.
   * @param {State} state
   */
  marked(state) {
    const { refusal, view } = state, before = JSON.stringify([...this.wrong]);
    const marks = [...refusal?.places ?? [], ...view.verdict.places].filter(mark => mark.kind === 'cell');
    const text = refusal?.text ?? view.verdict.text;
    this.wrong = new Map(marks.map(mark => [`${mark.name} ${mark.field}`, text]));
    if (refusal && this.typed.key) this.wrong.set(this.typed.key, text);
    return JSON.stringify([...this.wrong]) !== before;
  }

  /** @param {View} view */
  streamTable(view) {
    return make('table', { class: 'cells' }, head(['', 'supply', 'target', 'CP', 'load', 'own ΔT', '']),
      make('tbody', {}, ...view.streams.flatMap(stream => stream.segments.length ? this.wholeRows(stream)
        : [this.streamRow(stream)])));
  }

  /** @param {View} view */
  utilityTable(view) {
    return make('table', { class: 'cells' }, head(['utility', 'level', 'uses', 'at most', 'price', 'own ΔT', '']),
      make('tbody', {}, ...view.utilities.map(utility => this.utilityRow(utility))));
  }

  /** @param {View} view */
  forbidList(view) {
    return view.forbids.length > 0 && make('ul', { class: 'forbids', 'aria-label': 'forbidden matches' },
      ...view.forbids.map(forbid => make('li', {}, `${forbid.hot} and ${forbid.cold} may not meet `,
        this.remover(forbid.row, `the forbidden match of ${forbid.hot} and ${forbid.cold}`))));
  }

  /**
   * A stream of several segments is one row, which opens.
   * @param {StreamRow} stream
   */
  wholeRows(stream) {
    const { segments, name } = stream, first = segments[0], last = segments[segments.length - 1];
    const open = this.unfolded.has(stream.row);
    const toggle = () => {
      if (!this.unfolded.delete(stream.row)) this.unfolded.add(stream.row);
      this.render(this.actions.state, null);
    };
    return [make('tr', { class: stream.side }, make('th', { scope: 'row' },
      make('span', { 'aria-label': stream.side, role: 'img' }, stream.side === 'hot' ? '→' : '←'), ' ',
      this.cell(stream.row, 'name', name, name, 'name')),
    this.data(first.row, 'supply', first.supply, name),
    last.target ? this.data(last.row, 'target', last.target, name) : make('td', { class: 'number' }, stream.target),
    make('td', {}, make('button', {
      type: 'button', class: 'link', 'data-key': `unfold ${stream.row}`, 'aria-expanded': String(open), click: toggle,
      'aria-label': `${segments.length} segments of ${name}`,
    }, `${open ? '▾' : '▸'} ${segments.length} seg.`)),
    make('td', { class: 'number' }, stream.heat), make('td'),
    make('td', {}, this.remover(stream.row, name))),
    ...open ? segments.map(segment => this.streamRow(segment, ' segment')) : []];
  }

  /**
   * @param {StreamRow} stream
   * @param {string} [more] how it is told apart
   */
  streamRow(stream, more = '') {
    const latent = !stream.target;
    const sign = stream.side === 'hot' ? '→' : '←';
    return make('tr', { class: stream.side + more }, make('th', { scope: 'row' },
      make('span', { 'aria-label': stream.side, role: 'img' }, sign), ' ',
      this.cell(stream.row, 'name', stream.name, stream.name, 'name')),
    this.data(stream.row, 'supply', stream.supply, stream.name),
    latent ? make('td', { class: 'pale' }, 'latent') : this.data(stream.row, 'target', stream.target, stream.name),
    latent ? make('td', { class: 'pale' }, '–') : this.data(stream.row, 'flow', stream.flow, stream.name),
    latent || stream.load ? this.data(stream.row, 'load', stream.load || stream.heat, stream.name)
      : make('td', { class: 'number' }, stream.heat),
    this.data(stream.row, 'contribution', stream.contribution, stream.name),
    make('td', {}, this.remover(stream.row, stream.name)));
  }

  /** @param {UtilityRow} utility */
  utilityRow(utility) {
    const { row, name, side } = utility;
    if (utility.invented) {
      return make('tr', { class: side }, make('th', { scope: 'row' }, name), make('td', { class: 'pale' }, 'any'),
        make('td', { class: 'number' }, utility.uses), make('td', { class: 'pale' }, 'any'), make('td'), make('td'),
        make('td'));
    }
    return make('tr', { class: side }, make('th', { scope: 'row' }, this.cell(row, 'name', name, name, 'name')),
      this.data(row, 'level', utility.level, name), make('td', { class: 'number' }, utility.uses),
      this.data(row, 'most', utility.most, name), this.data(row, 'price', utility.price, name),
      this.data(row, 'contribution', utility.contribution, name), make('td', {}, this.remover(row, name)));
  }

  /**
   * @param {string} row
   * @param {string} field
   * @param {string} text
   * @param {string} name
   */
  data(row, field, text, name) {
    return make('td', { class: 'number' }, this.cell(row, field, text, name, 'number'));
  }

  /**
   * A field of a row. What is typed is asked of the desk when the field is left or Enter is pressed; Escape takes it
   * back.
   * @param {string} row
   * @param {string} field
   * @param {string} text
   * @param {string} name
   * @param {string} kind
   */
  cell(row, field, text, name, kind) {
    const key = `${row} ${field}`, wrong = this.wrong.has(key);
    /** @type {HTMLInputElement} */
    const input = make('input', {
      value: text, class: kind, size: kind === 'name' ? Math.min(this.longest, 14) : Math.max(3, text.length),
      'data-key': `cell ${key}`,
      'aria-label': `${WORDS[field] ?? field} of ${name}`,
      spellcheck: 'false', autocomplete: 'off', placeholder: '–', 'aria-invalid': wrong && 'true',
      'aria-describedby': wrong && 'cell-fault',
      change: () => this.change(row, field, input),
      keydown: (/** @type {KeyboardEvent} */ event) => {
        if (event.key !== 'Escape') return;
        input.value = input.defaultValue;
        this.typed = { key: '', text: '' };
        this.actions.store.set({ refusal: null });
      },
    });
    if (wrong && this.typed.key === key) input.value = this.typed.text;
    return input;
  }

  /**
   * @param {string} row
   * @param {string} field
   * @param {HTMLInputElement} input
   */
  async change(row, field, input) {
    this.typed = { key: `${row} ${field}`, text: input.value };
    input.dataset.sent = input.value;
    if (await this.actions.do({ kind: 'cell', row, field, text: input.value })) this.typed = { key: '', text: '' };
  }

  /**
   * @param {string} row
   * @param {string} name
   */
  remover(row, name) {
    return make('button', {
      type: 'button', class: 'remove', 'aria-label': `remove ${name}`, title: `remove ${name}`,
      'data-key': `remove ${row}`, click: () => this.actions.do({ kind: 'remove', row }),
    }, '×');
  }

  /**
   * @param {View} view
   * @param {string} difference
   */
  adders(view, difference) {
    const kinds = /** @type {('stream' | 'utility' | 'forbid')[]} */ (['stream', 'utility', 'forbid']);
    return kinds.map(kind => make('details', {
      open: this.opened === kind, toggle: (/** @type {{target: HTMLDetailsElement}} */ event) => {
        if (event.target.open) this.opened = kind;
        else if (this.opened === kind) this.opened = '';
      },
    }, make('summary', { 'data-key': `add ${kind}` }, `Add ${TITLES[kind]}`), this.adder(kind, view, difference)));
  }

  /**
   * Opens a form with some of its fields filled in, and goes to its first one.
   * @param {keyof typeof FORMS} kind
   * @param {Record<string, string>} fields
   */
  open(kind, fields) {
    this.opened = kind;
    for (const [name, text] of Object.entries(fields)) this.begun.set(`new ${kind} ${name}`, text);
    this.render(this.actions.state, null);
    keyed(this.panel, `new ${kind} ${FORMS[kind][0]}`)?.focus();
  }

  /**
   * A field of a form, with what was begun in it: the panel is drawn anew where an answer comes.
   * @param {string} kind
   * @param {string} name
   * @param {View} view
   */
  adderField(kind, name, view) {
    const key = `new ${kind} ${name}`, begun = this.begun.get(key);
    /** @param {{target: HTMLInputElement | HTMLSelectElement}} event */
    const input = event => { this.begun.set(key, event.target.value); };
    /** @param {string} side */
    const named = side => [...view.streams, ...view.utilities].filter(source => source.side === side)
      .map(source => source.name);
    const list = name === 'side' ? ['hot', 'cold'] : kind === 'forbid' ? named(name) : null;
    return list ? make('select', { 'data-key': key, input },
      ...list.map(word => make('option', { selected: word === begun }, word)))
      : make('input', { 'data-key': key, input, value: begun, size: 9, autocomplete: 'off', spellcheck: 'false' });
  }

  /**
   * @param {'stream' | 'utility' | 'forbid'} kind
   * @param {View} view
   * @param {string} difference
   */
  adder(kind, view, difference) {
    /** @type {[string, HTMLInputElement | HTMLSelectElement][]} */
    const fields = FORMS[kind].map(name => [name, this.adderField(kind, name, view)]);
    const { refusal } = this.actions.state;
    return make('form', {
      class: 'adder', submit: async (/** @type {Event} */ event) => {
        event.preventDefault();
        const filled = fields.map(([name, field]) => [name, field.value.trim()]).filter(([, text]) => text);
        if (!await this.actions.do({ kind: 'add', what: kind, ...Object.fromEntries(filled) })) {
          this.refused = { kind, refusal: this.actions.state.refusal };
          this.render(this.actions.state, null);
          return;
        }
        // One is seldom alone: the form is ready for the next one, on the same side.
        for (const name of FORMS[kind]) if (name !== 'side') this.begun.delete(`new ${kind} ${name}`);
        this.render(this.actions.state, null);
        const first = keyed(this.panel, `new ${kind} ${FORMS[kind][0]}`);
        if (first instanceof HTMLInputElement) first.value = '';
        first?.focus();
      },
    }, ...fields.map(([name, field]) => make('label', {}, make('span', {}, WORDS[name] ?? name), field)),
    kind === 'stream' && make('p', { class: 'pale' }, 'A CP, or a load from supply to target; a latent stream has a '
      + `load alone. Without an own ΔT (${difference}) it has that of the case.`),
    refusal && this.refused.kind === kind && refusal === this.refused.refusal
      && make('p', { class: 'fault' }, `⚠ ${refusal.text}`),
    make('button', { 'data-key': `add ${kind} now` }, 'add'));
  }
}

/** @type {Record<string, string>} what a heading means that is no word */
const MEANINGS = {
  CP: 'heat capacity flow: the load for each degree', 'own ΔT': 'its own part of the least approach; else the case\'s',
};

/** @param {string[]} words */
function head(words) {
  const cells = words.map(word => word ? make('th', { scope: 'col', title: MEANINGS[word] }, word) : make('td'));
  return make('thead', {}, make('tr', {}, ...cells));
}
