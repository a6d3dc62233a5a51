// What the page knows: the view of the desk, and what the user is at.

import { drawTogether } from './dom.js';

/** @typedef {import('./contract.js').Offer} Offer */
/** @typedef {import('./contract.js').Refusal} Refusal */
/** @typedef {import('./contract.js').Slider} Slider */
/** @typedef {import('./contract.js').View} View */
/** @typedef {import('./contract.js').WayOffer} WayOffer */
/** @typedef {import('./contract.js').WaysFound} WaysFound */

/** @typedef {{kind: 'exchanger' | 'piece' | 'joint', name: string}} Chosen */
/** @typedef {{piece: string, most: string, list: Offer[] | null}} Offers of at most so much; `list` is null at first */
/** @typedef {{exchanger: string, list: Offer[] | null}} Moves where its ends can go; null until it is there */
/** @typedef {{exchanger: string, list: Offer[]}} Instead other places for an exchanger that was just placed */

/**
 * @typedef {object} State
 * @property {View} view
 * @property {Chosen | null} chosen
 * @property {Offers | null} offers
 * @property {Instead | null} instead
 * @property {Moves | null} moves
 * @property {WaysFound} ways
 * @property {boolean} waysAsked whether the ways are those of an earlier version
 * @property {WayOffer | null} way the way that is pointed at
 * @property {string[]} partners the partners of an offer that is pointed at
 * @property {Slider | null} slider
 * @property {Refusal | null} refusal
 * @property {boolean} busy
 * @property {boolean} lost whether the desk does not answer
 * @property {boolean} elsewhere whether it goes on in a window that was opened anew
 * @property {boolean} closed whether it was closed from here
 */

/** @typedef {(state: State, before: State | null) => void} Renderer */

export class Store {
  /** @param {View} view */
  constructor(view) {
    /** @type {State} */
    this.state = {
      view, chosen: null, offers: null, instead: null, moves: null, ways: { ways: [], more: '' }, waysAsked: true,
      way: null, partners: [],
      slider: null, refusal: null, busy: false, lost: false, elsewhere: false, closed: false,
    };
    /** @type {Renderer[]} */
    this.renderers = [];
  }

  /** @param {Renderer} renderer */
  add(renderer) {
    this.renderers.push(renderer);
    renderer(this.state, null);
  }

  /** @param {Partial<State>} changes */
  set(changes) {
    const before = this.state;
    if (changes.view) changes = { ...changes, view: shared(changes.view, before.view) };
    this.state = { ...before, ...changes };
    const { state } = this;
    drawTogether(() => { for (const renderer of this.renderers) renderer(state, before); });
  }
}

/**
 * A view whose parts are those of the one before where they say the same, or that one itself: what is the same is not
 * drawn again.
 * @param {View} view
 * @param {View} before
 * @returns {View}
 */
function shared(view, before) {
  /** @type {Record<string, unknown>} */
  const parts = { ...view };
  for (const [name, old] of Object.entries(before)) if (isSame(parts[name], old)) parts[name] = old;
  if (Object.entries(before).every(([name, old]) => parts[name] === old)) return before;
  return /** @type {View} */ (/** @type {unknown} */ (parts));
}

/**
 * Whether two answers say the same; it ends at the first difference.
 * @param {any} one
 * @param {any} other
 * @returns {boolean}
 */
function isSame(one, other) {
  if (one === other) return true;
  if (typeof one !== 'object' || typeof other !== 'object' || one === null || other === null) return false;
  const names = Object.keys(one);
  return names.length === Object.keys(other).length && names.every(name => isSame(one[name], other[name]));
}

/**
 * Whether one of these parts of the view is another than before.
 * @param {State} state
 * @param {State | null} before
 * @param {...keyof View} names
 */
export function viewChanged(state, before, ...names) {
  return before === null || names.some(name => state.view[name] !== before.view[name]);
}

/**
 * Whether one of these parts of the state is another than before.
 * @param {State} state
 * @param {State | null} before
 * @param {...keyof State} names
 */
export function changed(state, before, ...names) {
  return before === null || names.some(name => state[name] !== before[name]);
}
