// Loops and paths: what can be moved along each and what it costs, what stops it, what breaks and what mends.

import { asks, fill, keyed, make, whenDrawn } from './dom.js';
import { changed } from './state.js';

/** @typedef {import('./actions.js').Actions} Actions */
/** @typedef {import('./contract.js').WayOffer} WayOffer */
/** @typedef {import('./contract.js').View} View */

const NONE = 'None yet. A path goes from a heater to a cooler, a loop comes back to where it began.';

export class WaysPart {
  /**
   * @param {HTMLElement} panel
   * @param {Actions} actions
   * @param {() => unknown} back gives the focus back to the diagram
   */
  constructor(panel, actions, back) {
    this.panel = panel;
    this.actions = actions;
    this.back = back;
    this.scrolled = 0;
    /** @type {Map<string, WayOffer>} */
    this.ways = new Map();
    /** Where the pointer was last: what comes below one that rests is not pointed at. */
    this.pointer = { x: -1, y: -1 };
    panel.addEventListener('scroll', () => { this.scrolled = panel.scrollTop; });
    panel.addEventListener('keydown', event => {
      if (event.key === 'Escape') back();
    });
    panel.addEventListener('pointermove', event => this.pointed(event));
    panel.addEventListener('pointerleave', () => this.point(document.activeElement));
    panel.addEventListener('focusin', event => this.point(event.target));
    panel.addEventListener('focusout', event => this.point(event.relatedTarget));
  }

  /** @type {import('./state.js').Renderer} */
  render = (state, before) => {
    this.panel.classList.toggle('stale', state.waysAsked);
    this.panel.setAttribute('aria-busy', String(state.waysAsked));
    if (!changed(state, before, 'ways')) return;
    const { scrolled } = this, { ways, more } = state.ways, focused = document.activeElement;
    const key = focused && this.panel.contains(focused) ? focused.getAttribute('data-key') ?? '' : null;
    this.ways = new Map(ways.map(way => [way.id, way]));
    fill(this.panel, make('h2', { id: 'ways-title' }, 'Loops and paths'), ways.length
      ? make('ol', { class: 'ways' }, ...ways.map(way => this.item(way, state.view))) : make('p', {}, NONE),
    more && make('p', { class: 'pale' }, more));
    const isGone = key !== null && !keyed(this.panel, key);
    if (scrolled || isGone) whenDrawn(() => { this.panel.scrollTop = isGone ? 0 : scrolled; });
    // What had the focus is gone: it is in the first box, which mends, or else goes back to the diagram.
    if (isGone) whenDrawn(() => this.elsewhere(ways));
  };

  /** @param {WayOffer[]} ways */
  elsewhere(ways) {
    if (!ways[0]?.mends.length) this.back();
    else if (document.activeElement instanceof HTMLInputElement) document.activeElement.select();
  }

  /** @param {PointerEvent} event */
  pointed(event) {
    const { clientX: x, clientY: y } = event;
    if (x === this.pointer.x && y === this.pointer.y) return;
    this.pointer = { x, y };
    this.point(event.target);
  }

  /**
   * Shows the way of an element in the diagram.
   * @param {EventTarget | null} target
   */
  point(target) {
    const item = target instanceof Element && this.panel.contains(target) ? target.closest('[data-way]') : null;
    const way = this.ways.get(item?.getAttribute('data-way') ?? '') ?? null;
    if (way !== this.actions.state.way) this.actions.store.set({ way });
  }

  /**
   * @param {WayOffer} way
   * @param {View} view
   */
  item(way, view) {
    const { actions } = this;
    const mends = way.mends.length > 0 && make('strong', { class: 'mends' }, ` mends ${way.mends.join(', ')}`);
    const leaves = way.leaves.length > 0 && `${mends ? ', not' : ' does not mend'} ${way.leaves.join(', ')}`;
    return make('li', { class: way.mends.length ? 'mending' : '', 'data-way': way.id },
      make('p', {}, make('b', {}, way.kind), ' ', way.text, mends, leaves),
      way.most ? this.mover(way, view) : make('p', { class: 'pale' }, `nothing can be moved: ${way.ends}`),
      way.breaks && make('button', {
        type: 'button', 'data-key': `break ${way.id}`, click: () => actions.do({ kind: 'break', way: way.id }),
      }, `break it: ${way.breaks}`));
  }

  /**
   * @param {WayOffer} way
   * @param {View} view
   */
  mover(way, view) {
    const field = make('input', {
      value: way.first, size: 8, class: 'number', inputmode: 'decimal', 'data-key': `heat ${way.id}`, required: true,
      autocomplete: 'off', 'aria-label': `heat to be moved along ${way.text}, in ${view.units.heat}`,
    });
    return make('form', {
      submit: async (/** @type {Event} */ event) => {
        event.preventDefault();
        const gesture = { kind: 'shift', way: way.id, heat: field.value };
        // Not to the next box: Enter once more would move another heat.
        if (await asks([field], () => this.actions.do(gesture))) this.back();
      },
    }, make('span', { class: 'pale' },
      `${way.least} to ${way.most} ${view.units.heat}${way.ends ? ` (${way.ends})` : ''}, ${way.cost}`),
    make('span', { class: 'move' }, field, ' ', make('button', { 'data-key': `move ${way.id}` }, 'move')));
  }
}
