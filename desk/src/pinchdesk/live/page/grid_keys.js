// The grid diagram by keys: it is one stop of Tab, arrows go from place to place, letters do what buttons do.

import { chosenAt } from './grid_marks.js';

/** @typedef {import('./grid.js').GridPart} GridPart */

/** @type {Record<string, [number, number]>} */
const WAYS = { ArrowLeft: [-1, 0], ArrowRight: [1, 0], ArrowUp: [0, -1], ArrowDown: [0, 1] };

/**
 * @typedef {{element: SVGElement, shape: Element, x: number, y: number, isPiece: boolean}} Stop an exchanger has one at
 * each end
 */

export class GridKeys {
  /** @param {GridPart} part */
  constructor(part) {
    this.part = part;
    /** @type {Stop[]} */
    this.stops = [];
    /** @type {Stop | null} */
    this.present = null;
  }

  /**
   * Takes the stops of a new picture; the focus stays where it was, or goes to the nearest place.
   * @param {SVGSVGElement} picture
   * @param {boolean} focused
   */
  renew(picture, focused) {
    const before = this.present;
    this.stops = stopsOf(picture);
    const again = before && this.stops.find(stop => keyOf(stop) === keyOf(before) && stop.y === before.y);
    const same = before && this.stops.find(stop => keyOf(stop) === keyOf(before));
    // Of what is gone the piece that is open then: Delete once more takes nothing else away.
    const open = before && nearest(this.stops.filter(stop => stop.isPiece), before);
    this.goTo(again || same || open || nearest(this.stops, before) || null, focused);
  }

  /**
   * @param {Stop | null} stop
   * @param {boolean} focused
   */
  goTo(stop, focused) {
    if (this.present) {
      this.present.element.setAttribute('tabindex', '-1');
      this.present.shape.classList.remove('here');
    }
    this.present = stop;
    if (!stop) return;
    stop.element.setAttribute('tabindex', '0');
    stop.shape.classList.add('here');
    if (focused) stop.element.focus({ preventScroll: false });
  }

  /** The focus goes to the present place. */
  enter() {
    this.goTo(this.present, true);
  }

  /** @param {Event} event */
  entered(event) {
    const target = event.target;
    const stop = this.stops.find(found => found.element === target);
    if (stop && (!this.present || this.present.element !== stop.element)) this.goTo(stop, false);
  }

  /** @param {KeyboardEvent} event */
  pressed(event) {
    if (event.ctrlKey || event.metaKey || event.altKey) return;
    // A window that is not in front hears of no focus.
    this.entered(event);
    const way = WAYS[event.key];
    const done = way ? this.step(way[0], way[1]) : this.leap(event.key) || this.act(event.key);
    if (done) event.preventDefault();
  }

  /**
   * To the next place in a direction: along a row, or to the nearest one of the next row.
   * @param {number} right
   * @param {number} down
   */
  step(right, down) {
    const { present } = this;
    if (!present) return false;
    const others = this.stops.filter(stop => stop !== present);
    const inRow = others.filter(stop => stop.y === present.y && (stop.x - present.x) * right > 0);
    const beyond = others.filter(stop => (stop.y - present.y) * down > 0);
    const row = down > 0 ? Math.min(...beyond.map(stop => stop.y)) : Math.max(...beyond.map(stop => stop.y));
    const found = nearest(right ? inRow : beyond.filter(stop => stop.y === row), present);
    if (found) this.goTo(found, true);
    return true;
  }

  /**
   * To the first or the last place; the open ones come first.
   * @param {string} key
   */
  leap(key) {
    const stop = key === 'Home' ? this.stops[0] : key === 'End' ? this.stops[this.stops.length - 1] : undefined;
    if (stop) this.goTo(stop, true);
    return stop !== undefined;
  }

  /**
   * What a key does with what has the focus.
   * @param {string} key
   */
  act(key) {
    const { actions } = this.part;
    const chosen = this.present && chosenAt(this.present.element);
    if (!chosen) return false;
    const { kind, name } = chosen, away = key === 'Delete' || key === 'Backspace';
    if (key === 'Enter' || key === ' ') {
      actions.choose(chosen);
      this.part.enter(chosen);
    } else if (key === 'Escape') actions.choose(null);
    else if (key === 'U') actions.do({ kind: 'finish' });
    else if (kind === 'piece' && key === 'u') actions.do({ kind: 'utility', piece: name });
    else if (kind === 'piece' && key === 's') actions.do({ kind: 'split', piece: name });
    else if (kind === 'exchanger' && key === 'm') actions.do({ kind: 'grow', exchanger: name });
    else if (kind === 'exchanger' && key === 'e') {
      actions.choose(chosen);
      this.part.enter(chosen, 'moves');
    } else if (kind === 'exchanger' && away) actions.do({ kind: 'take', exchanger: name });
    else if (kind === 'joint' && away) actions.do({ kind: 'join', joint: name });
    else return false;
    return true;
  }
}

/** @param {Stop} stop */
function keyOf(stop) {
  return stop.element.getAttribute('data-key');
}

/**
 * The stop that is nearest to where another is.
 * @param {Stop[]} stops
 * @param {Stop | null} from
 */
function nearest(stops, from) {
  if (!from) return stops[0];
  /** @param {Stop} stop */
  const far = stop => Math.abs(stop.x - from.x) + 3 * Math.abs(stop.y - from.y);
  return [...stops].sort((one, other) => far(one) - far(other))[0];
}

/**
 * The places of a picture, pieces first.
 * @param {SVGSVGElement} picture
 * @returns {Stop[]}
 */
function stopsOf(picture) {
  /** @type {Stop[]} */
  const stops = [];
  for (const element of picture.querySelectorAll('[data-piece], [data-exchanger], [data-joint]')) {
    if (!(element instanceof SVGElement)) continue;
    const shapes = element.querySelectorAll('rect');
    for (const shape of shapes.length ? shapes : element.querySelectorAll('.upright')) {
      stops.push({ element, shape, ...middle(shape), isPiece: element.dataset.piece !== undefined });
    }
  }
  return stops.sort((one, other) =>
    Number(!one.isPiece) - Number(!other.isPiece) || one.y - other.y || one.x - other.x);
}

/** @param {Element} shape */
function middle(shape) {
  /** @param {string} name */
  const read = name => parseFloat(shape.getAttribute(name) ?? '0');
  if (shape.tagName === 'line') return { x: read('x1'), y: read('y1') };
  return { x: read('x') + read('width') / 2, y: read('y') + read('height') / 2 };
}
