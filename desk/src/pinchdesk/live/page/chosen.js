// The panel of what is chosen in the diagram: the partners of an open piece, an exchanger, a split.

import { asks, fill, keyed, make, whenDrawn } from './dom.js';
import { crossingText } from './geometry.js';
import { partnersOf } from './grid_marks.js';
import { changed } from './state.js';

/** @typedef {import('./actions.js').Actions} Actions */
/** @typedef {import('./contract.js').JointLine} JointLine */
/** @typedef {import('./contract.js').Offer} Offer */
/** @typedef {import('./contract.js').OpenPill} OpenPill */
/** @typedef {import('./contract.js').View} View */
/** @typedef {import('./dom.js').Child} Child */
/** @typedef {import('./state.js').State} State */

export class ChosenPart {
  /**
   * @param {HTMLElement} panel
   * @param {Actions} actions
   * @param {(key: string) => unknown} back gives the focus back to a place of the diagram
   */
  constructor(panel, actions, back) {
    this.panel = panel;
    this.actions = actions;
    this.back = back;
    this.scrolled = 0;
    panel.addEventListener('keydown', event => this.pressed(event));
    panel.addEventListener('scroll', () => { this.scrolled = panel.scrollTop; });
  }

  /** @type {import('./state.js').Renderer} */
  render = (state, before) => {
    if (!changed(state, before, 'view', 'chosen', 'offers', 'instead', 'moves')) return;
    const scrolled = before && before.chosen === state.chosen ? this.scrolled : 0;
    fill(this.panel, ...this.content(state));
    if (scrolled !== this.scrolled || scrolled) whenDrawn(() => { this.panel.scrollTop = scrolled; });
  };

  /**
   * @param {State} state
   * @returns {Child[]}
   */
  content(state) {
    const { chosen, view } = state, { grid } = view;
    if (chosen && grid) {
      const piece = chosen.kind === 'piece' && grid.pieces.find(found => found.id === chosen.name);
      if (piece) return this.pieceContent(piece, state);
      const joint = chosen.kind === 'joint' && grid.joints.find(found => found.id === chosen.name);
      if (joint) return this.jointContent(joint);
      if (chosen.kind === 'exchanger') return exchangerContent(chosen.name, state, this.actions);
    }
    const open = grid !== null && grid.pieces.length > 0;
    return [title('Place exchangers'), make('p', {}, !grid ? 'There is no diagram here to work on.' : open
      ? 'Drag from an open piece (dashed) to a piece of the other side, or to a utility. Begin at the pinch and go '
        + 'away from it. Or move with Tab and the arrow keys, and press Enter.'
      : 'Nothing is open. Choose an exchanger, or a loop or a path beside this.')];
  }

  /**
   * @param {OpenPill} piece
   * @param {State} state
   * @returns {Child[]}
   */
  pieceContent(piece, state) {
    const { offers, view } = state, { actions } = this;
    const of = offers && offers.piece === piece.id ? offers : null, list = of && of.list;
    const utilities = view.utilities.filter(utility => utility.side !== piece.side);
    return [
      title(`${piece.stream}: ${piece.duty} ${view.units.heat} open`,
        `${piece.first} → ${piece.last} ${view.units.temperature}`),
      piece.fault && make('p', { class: 'fault' }, `⚠ ${piece.fault} `, make('button', {
        type: 'button', 'data-key': 'add one', click: () => actions.utilityForm(piece.side === 'hot' ? 'cold' : 'hot'),
      }, `add a ${piece.side === 'hot' ? 'cold' : 'hot'} utility …`)),
      list === null ? make('p', { class: 'pale' }, 'Looking for partners …')
        : list.length ? this.offerList(list)
          : make('p', {}, 'No stream and no utility can exchange heat with it here.'),
      make('div', { class: 'tools' },
        ...utilities.map(utility => make('button', {
          type: 'button', 'data-key': `serve ${utility.name}`,
          click: () => actions.do({ kind: 'utility', piece: piece.id, utility: utility.name }),
        }, `serve by ${utility.name}`)),
        splitForm(piece, actions), limitForm(piece, of ? of.most : '', view, actions)),
    ];
  }

  /**
   * The partners of a piece, the best first.
   * @param {Offer[]} list
   */
  offerList(list) {
    return make('ol', { class: 'offers', 'aria-label': 'partners, the best first' },
      ...list.map((offer, at) => make('li', {}, offerButton(offer, `offer ${at}`, this.actions, async () => {
        await this.actions.place(offer, list);
        const { chosen } = this.actions.state;
        if (chosen) this.back(`${chosen.kind} ${chosen.name}`);
      }))));
  }

  /**
   * @param {JointLine} joint
   * @returns {Child[]}
   */
  jointContent(joint) {
    const fields = joint.shares.map((share, at) => make('input', {
      value: share, 'aria-label': `share of branch ${at + 1} in percent`, size: 7, inputmode: 'decimal',
      'data-key': `share ${at}`,
    }));
    return [
      title(`Split of ${joint.stream}`),
      make('form', {
        class: 'tools', submit: (/** @type {Event} */ event) => {
          event.preventDefault();
          const gesture = { kind: 'shares', joint: joint.id, shares: fields.map(field => field.value) };
          asks(fields, () => this.actions.do(gesture));
        },
      }, ...fields.flatMap(field => [field, ' % ']),
      make('button', { 'data-key': 'keep shares' }, 'keep these shares')),
      make('div', { class: 'tools' }, make('button', {
        type: 'button', 'data-key': 'join', click: () => this.actions.do({ kind: 'join', joint: joint.id }),
      }, 'join the branches')),
      make('p', { class: 'pale' }, 'Branches can be joined where all exchangers are on one of them.'),
    ];
  }

  /** @param {KeyboardEvent} event */
  pressed(event) {
    if (event.key === 'Escape') {
      const { chosen } = this.actions.state;
      event.stopPropagation();
      if (chosen) this.back(`${chosen.kind} ${chosen.name}`);
      return;
    }
    const buttons = [...this.panel.querySelectorAll('.offers button')];
    const at = buttons.indexOf(/** @type {Element} */ (event.target));
    /** @type {Record<string, number>} */
    const ways = { ArrowDown: at + 1, ArrowUp: at - 1, Home: 0, End: buttons.length - 1 };
    const next = at < 0 ? null : buttons[ways[event.key] ?? -1];
    if (next instanceof HTMLElement) {
      event.preventDefault();
      next.focus();
    }
  }

  /**
   * Goes into the panel: to the first partner once it is there, to the duty, to the first share.
   * @param {string} [to] `moves`: to the first place that an end of an exchanger can be moved to
   */
  async enter(to) {
    const { chosen } = this.actions.state;
    if (chosen && chosen.kind === 'piece') await this.actions.offer(chosen.name);
    if (chosen && to) await this.actions.findMoves(chosen.name);
    const keys = { exchanger: to ? 'move 0' : 'duty', joint: 'share 0', piece: 'offer 0' };
    const first = chosen && (keyed(this.panel, keys[chosen.kind]) ?? keyed(this.panel, to ?? ''));
    const found = first ?? this.panel.querySelector('button, input');
    if (found instanceof HTMLElement) found.focus();
    if (found instanceof HTMLInputElement) found.select();
  }
}

/**
 * @param {string} text
 * @param {string} [more]
 */
function title(text, more = '') {
  return make('h2', { id: 'chosen-title' }, text, more && ' ', more && make('small', {}, more));
}

/**
 * @param {Offer} offer
 * @param {string} key
 * @param {Actions} actions
 * @param {() => unknown} taken
 */
function offerButton(offer, key, actions, taken) {
  const point = () => actions.store.set({ partners: partnersOf(offer) });
  const leave = () => actions.store.set({ partners: [] });
  return make('button', {
    type: 'button', class: `offer ${offer.free ? 'free' : 'dear'}`, 'data-key': key, click: taken,
    pointerenter: point, focus: point, pointerleave: leave, blur: leave,
  }, make('b', {}, offer.kind === 'utility' ? offer.partner : offer.stream), ' ', make('span', {}, offer.words), ' · ',
  make('span', { class: 'cost' }, offer.cost));
}

/**
 * @param {OpenPill} piece
 * @param {Actions} actions
 */
function splitForm(piece, actions) {
  const share = make('input', {
    value: '50', size: 4, inputmode: 'decimal', 'aria-label': 'share of the new branch in percent',
    'data-key': 'split share',
  });
  return make('form', {
    submit: (/** @type {Event} */ event) => {
      event.preventDefault();
      asks([share], () => actions.do({ kind: 'split', piece: piece.id, share: share.value }));
    },
  }, make('button', { 'data-key': 'split' }, 'split here'), ' ', share, ' %');
}

/**
 * Partners for no more than so much heat.
 * @param {OpenPill} piece
 * @param {string} most
 * @param {View} view
 * @param {Actions} actions
 */
function limitForm(piece, most, view, actions) {
  const field = make('input', {
    value: most, size: 6, inputmode: 'decimal', 'aria-label': `place no more than so much, in ${view.units.heat}`,
    'data-key': 'most', placeholder: piece.duty,
  });
  return make('form', {
    submit: (/** @type {Event} */ event) => {
      event.preventDefault();
      field.dataset.sent = field.value;
      actions.offer(piece.id, field.value.trim());
    },
  }, make('button', { 'data-key': 'limit' }, 'place at most'), ' ', field, ` ${view.units.heat}`);
}

/**
 * @param {string} name
 * @param {State} state
 * @param {Actions} actions
 * @returns {Child[]}
 */
function exchangerContent(name, state, actions) {
  const { view, instead } = state;
  const shape = view.grid?.exchangers.find(found => found.name === name);
  if (!shape) return [title(name)];
  const others = instead && instead.exchanger === name ? instead.list : [];
  return [
    title(`${name}: ${shape.hot} → ${shape.cold}`),
    shape.fault && make('p', { class: 'fault' }, `⚠ ${shape.fault}`),
    dutyForm(name, shape.duty, view, actions),
    others.length > 0 && make('h3', {}, 'Instead'),
    others.length > 0 && make('ol', { class: 'offers', 'aria-label': 'other places' }, ...others.map((offer, at) =>
      make('li', {}, offerButton(offer, `instead ${at}`, actions, () => actions.placeInstead(offer))))),
    ...shape.kind === 'match' ? movesContent(name, state, actions) : [],
    facts(name, view),
    otherForms(name, shape.kind, view, actions),
  ];
}

/**
 * @param {string} name
 * @param {string} duty
 * @param {View} view
 * @param {Actions} actions
 */
function dutyForm(name, duty, view, actions) {
  const field = make('input', {
    value: duty, size: 9, class: 'number', inputmode: 'decimal', 'aria-label': `duty of ${name} in ${view.units.heat}`,
    'data-key': 'duty',
  });
  return make('form', {
    class: 'tools', submit: (/** @type {Event} */ event) => {
      event.preventDefault();
      asks([field], () => actions.do({ kind: 'duty', exchanger: name, heat: field.value }));
    },
  }, field, ` ${view.units.heat} `,
  make('button', { type: 'button', 'data-key': 'grow', click: () => actions.do({ kind: 'grow', exchanger: name }) },
    'as large as it can be'), ' ',
  make('button', { type: 'button', 'data-key': 'take', click: () => actions.do({ kind: 'take', exchanger: name }) },
    'take away'));
}

/**
 * Where the ends of an exchanger can be moved to: looked for when it is asked for.
 * @param {string} name
 * @param {State} state
 * @param {Actions} actions
 * @returns {Child[]}
 */
function movesContent(name, state, actions) {
  const { moves } = state, list = moves && moves.exchanger === name ? moves.list : null;
  if (!moves || moves.exchanger !== name) {
    return [make('button', {
      type: 'button', 'data-key': 'moves', 'aria-label': `move an end of ${name}`, click: () => actions.findMoves(name),
    }, 'move an end …')];
  }
  return [
    make('h3', { 'data-key': 'moves', tabindex: -1 }, 'Move an end, or both, to'),
    list === null ? make('p', { class: 'pale' }, 'Looking for places …')
      : list.length ? make('ol', { class: 'offers', 'aria-label': 'places for its ends, the best first' },
        ...list.map((offer, at) => make('li', {}, offerButton(offer, `move ${at}`, actions,
          () => actions.do(offer.gesture)))))
        : make('p', {}, 'No end can stand at another open piece.'),
  ];
}

/**
 * @param {string} name
 * @param {View} view
 */
function facts(name, view) {
  const row = view.exchangers.find(found => found.name === name);
  if (!row) return null;
  const { difference, temperature, heat } = view.units;
  const crossing = view.grid?.exchangers.find(bar => bar.name === name)?.crossing ?? '';
  /** @type {[string, string][]} */
  const lines = [
    ['hot side', `${row.hot_in} → ${row.hot_out} ${temperature}`],
    ['cold side', `${row.cold_in} → ${row.cold_out} ${temperature}`],
    ['least difference', row.difference && `${row.difference} ${difference}, needed ${row.wanted}`],
    ['pinch', pinchText(row.where, crossing, heat)],
    ['of the excess', row.loss && `${row.loss} ${heat}`], ['area', row.area && `${row.area} m²`],
  ];
  return make('dl', {}, ...lines.filter(([, text]) => text)
    .flatMap(([word, text]) => [make('dt', {}, word), make('dd', {}, text)]));
}

/**
 * @param {string} where
 * @param {string} crossing
 * @param {string} heat
 */
function pinchText(where, crossing, heat) {
  return !where ? 'there is none' : where + (crossing && `, ${crossingText(crossing)} (${heat})`);
}

/**
 * What is done less often: another utility, another name.
 * @param {string} name
 * @param {string} kind
 * @param {View} view
 * @param {Actions} actions
 */
function otherForms(name, kind, view, actions) {
  const side = kind === 'heater' ? 'hot' : 'cold', row = view.exchangers.find(found => found.name === name);
  const utilities = kind === 'match' ? [] : view.utilities.filter(utility => utility.side === side);
  const field = make('input', { value: name, size: 9, 'aria-label': `name of ${name}`, 'data-key': 'name' });
  const now = kind === 'heater' ? row?.hot : row?.cold;
  return make('div', { class: 'tools' },
    utilities.length > 1 && make('select', {
      'aria-label': 'utility', 'data-key': 'change utility',
      change: (/** @type {{target: HTMLSelectElement}} */ event) =>
        actions.do({ kind: 'change', exchanger: name, utility: event.target.value }),
    }, ...utilities.map(utility => make('option', { selected: utility.name === now }, utility.name))),
    make('form', {
      submit: (/** @type {Event} */ event) => {
        event.preventDefault();
        asks([field], () => actions.do({ kind: 'rename', exchanger: name, name: field.value }));
      },
    }, field, ' ', make('button', { 'data-key': 'rename' }, 'rename')));
}
