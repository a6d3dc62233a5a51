// Dragging in the grid diagram, by mouse, pen or finger: an open piece to its partner, an end of an exchanger or the
// whole of it to another piece. What a drop would cost stands beside the pointer before it is done.

import { draw, make, part } from './dom.js';
import { meantAt } from './grid_hits.js';
import { partnersOf } from './grid_marks.js';

/** @typedef {import('./contract.js').Offer} Offer */
/** @typedef {import('./grid.js').GridPart} GridPart */

/** So far a hand moves that only wants to press. */
const STILL = 5;
/** So near to an edge, in pixels, the diagram scrolls, and so far with each picture of the screen. */
const EDGE = 36, STEP = 9;

/**
 * @typedef {object} Pull
 * @property {'piece' | 'end' | 'whole'} kind
 * @property {string} name
 * @property {string} side
 * @property {{x: number, y: number}} from where it began, in the picture
 * @property {{x: number, y: number}} down where it began, in the window
 * @property {{x: number, y: number}} now where it is, in the window
 * @property {number} pointer
 * @property {boolean} moving
 * @property {SVGLineElement | null} line
 * @property {Element | null} target
 * @property {string} vain why nothing comes of a drop here
 */

export class Drag {
  /** @param {GridPart} gridPart */
  constructor(gridPart) {
    this.part = gridPart;
    /** @type {Pull | null} */
    this.pull = null;
    this.justEnded = false;
    this.hint = part('hint');
    document.addEventListener('keydown', event => {
      if (event.key === 'Escape' && this.pull) this.stop();
    });
  }

  /** The piece that is being dragged. */
  get piece() {
    return this.pull && this.pull.moving && this.pull.kind === 'piece' ? this.pull.name : null;
  }

  /** The exchanger of which an end, or the whole, is being dragged. */
  get exchanger() {
    return this.pull && this.pull.moving && this.pull.kind !== 'piece' ? this.pull.name : null;
  }

  /** @param {PointerEvent} event */
  down(event) {
    const target = event.target instanceof Element ? event.target : null, at = { x: event.clientX, y: event.clientY };
    const { picture } = this.part, found = picture && meantAt(target, inside(picture, at).x, this.part.at);
    const piece = found?.closest('[data-piece]'), ending = target?.closest('[data-end]');
    const exchanger = target?.closest('[data-exchanger]');
    if (event.button !== 0 || !picture || !piece && !exchanger) return;
    const shape = (piece ?? ending)?.querySelector('rect');
    // A finger on a bar or a line moves the page: they are everywhere.
    if (event.pointerType === 'touch' && !target?.closest('[data-piece], [data-end]')) return;
    this.pull = {
      kind: piece ? 'piece' : ending ? 'end' : 'whole',
      name: piece?.getAttribute('data-piece') ?? exchanger?.getAttribute('data-exchanger') ?? '',
      side: piece ? (piece.classList.contains('hot') ? 'hot' : 'cold') : ending?.getAttribute('data-end') ?? '',
      from: shape ? middleOf(shape) : inside(picture, at), down: at, now: at,
      pointer: event.pointerId, moving: false, line: null, target: null, vain: '',
    };
    // What was refused before is no matter of this.
    if (this.part.actions.state.refusal) this.part.actions.store.set({ refusal: null });
    if (piece) this.part.actions.offer(this.pull.name);
    window.addEventListener('pointermove', this.moved);
    window.addEventListener('pointerup', this.dropped);
    window.addEventListener('pointercancel', this.cancelled);
  }

  /** @param {PointerEvent} event */
  moved = event => {
    const { pull } = this, { picture } = this.part;
    if (!pull || !picture || event.pointerId !== pull.pointer) return;
    // It was let go where nothing of it was heard.
    if (!event.buttons) {
      this.stop();
      return;
    }
    if (!pull.moving) {
      if (Math.hypot(event.clientX - pull.down.x, event.clientY - pull.down.y) < STILL) return;
      pull.moving = true;
      // Not before: what is captured gets the click too.
      picture.setPointerCapture(event.pointerId);
      pull.line = draw('line', { class: 'pull', x1: pull.from.x, y1: pull.from.y });
      // Below what has a duty, so that it covers none.
      picture.querySelector('.pulled')?.append(pull.line);
      picture.classList.add('dragging');
      requestAnimationFrame(this.roll);
      if (pull.kind !== 'piece') this.part.actions.findMoves(pull.name);
      this.part.mark(this.part.actions.state);
    }
    this.aim({ x: event.clientX, y: event.clientY });
  };

  /** Near an edge of the diagram it scrolls, so that what is out of sight can be reached. */
  roll = () => {
    const wide = this.part.panel.querySelector('.wide'), { pull } = this;
    if (!pull || !pull.moving || !wide) return;
    const frame = wide.getBoundingClientRect(), { x, y } = pull.now;
    /** @type {(at: number, from: number, to: number) => number} */
    const push = (at, from, to) => at < from + EDGE ? -STEP : at > to - EDGE ? STEP : 0;
    const before = [wide.scrollLeft, wide.scrollTop];
    wide.scrollBy(push(x, frame.left, frame.right), push(y, frame.top, frame.bottom));
    if (wide.scrollLeft !== before[0] || wide.scrollTop !== before[1]) this.aim(pull.now);
    requestAnimationFrame(this.roll);
  };

  /**
   * The dotted line to the pointer or to what is below it, and what would come of a drop there.
   * @param {{x: number, y: number}} at in the window
   */
  aim(at) {
    const { pull } = this, { picture } = this.part;
    if (!pull || !pull.line || !picture) return;
    const { target, vain } = this.targetAt(at.x, at.y);
    pull.vain = vain;
    if (pull.target !== target) {
      pull.target?.classList.remove('aimed');
      target?.classList.add('aimed');
      pull.target = target;
    }
    const shape = target?.matches('[data-piece]') ? target.querySelector('rect') : null;
    const to = shape ? middleOf(shape) : inside(picture, at);
    pull.line.setAttribute('x2', String(to.x));
    pull.line.setAttribute('y2', String(to.y));
    pull.now = at;
    this.tell();
  }

  /**
   * Where a drop would go: a piece or a utility of the other side; for an end of an exchanger a piece of its side, for
   * the whole of it any piece. Else why it goes nowhere.
   * @param {number} x
   * @param {number} y
   */
  targetAt(x, y) {
    const { pull } = this, { picture, at, panel } = this.part;
    const found = picture && meantAt(document.elementFromPoint(x, y), inside(picture, { x, y }).x, at);
    if (!pull || !found || !panel.contains(found) || nameOf(found) === pull.name) return { target: null, vain: '' };
    const side = found.classList.contains('hot') ? 'hot' : 'cold', isPiece = found.matches('[data-piece]');
    const vain = found.matches('[data-lane]') ? 'nothing is open here'
      : pull.kind === 'piece' && side === pull.side ? `both are ${side}: heat goes from hot to cold`
        : pull.kind === 'end' && side !== pull.side ? `this end is ${pull.side}, and stays so` : '';
    const fits = !vain && (isPiece || pull.kind === 'piece' && found.matches('[data-utility]'));
    return { target: fits ? found : null, vain: found.matches('[data-exchanger]') ? '' : vain };
  }

  /** Beside the pointer, in words, what would come of a drop; again when costs have come. */
  tell() {
    const lines = this.words(), { x, y } = this.pull ? this.pull.now : { x: 0, y: 0 };
    this.hint.hidden = !lines.length;
    if (!lines.length) return;
    this.hint.replaceChildren(...lines.map(line => make('div', {}, line)));
    const { offsetWidth: wide, offsetHeight: high } = this.hint;
    const { left, top } = this.free(x, y, wide, high);
    this.hint.style.left = `${left}px`;
    this.hint.style.top = `${top}px`;
  }

  /**
   * Where a label beside the pointer covers no piece to which a drop could go; above it, if it does everywhere.
   * @param {number} x
   * @param {number} y
   * @param {number} wide
   * @param {number} high
   */
  free(x, y, wide, high) {
    const partners = [...this.part.panel.querySelectorAll('.partner rect')].map(shape => shape.getBoundingClientRect());
    /** @type {(top: number) => number} */
    const within = top => Math.max(4, Math.min(top, innerHeight - high - 4));
    const places = [[x + 14, y - high - 14], [x - wide - 14, y - high - 14], [x + 14, y + 18], [x - wide - 14, y + 18]]
      .map(([left, top]) => ({ left: Math.max(4, Math.min(left, innerWidth - wide - 4)), top: within(top) }));
    return places.find(({ left, top }) => partners.every(box =>
      box.right < left || box.left > left + wide || box.bottom < top || box.top > top + high)) ?? places[0];
  }

  /** @returns {string[]} */
  words() {
    const { pull } = this;
    if (!pull || !pull.target) return pull?.vain ? [pull.vain] : [];
    const partner = nameOf(pull.target);
    const { offers, moves } = this.part.actions.state;
    if (pull.kind !== 'piece') {
      if (!moves || moves.exchanger !== pull.name || !moves.list) return ['…'];
      const move = moveTo(pull, partner, moves.list), whole = move && partnersOf(move).length > 1;
      if (!move) return [pull.kind === 'end' ? 'this end cannot stand here' : `${pull.name} cannot stand here`];
      return [pull.kind === 'end' ? `move this end of ${pull.name} here`
        : whole ? `move ${pull.name} here, on ${move.stream}` : `move ${pull.name} here, its other end stays`,
      move.words, move.cost];
    }
    if (!offers || offers.piece !== pull.name || !offers.list) return ['…'];
    const offer = offers.list.find(found => found.partner === partner);
    return offer ? [offer.words, offer.cost] : ['no heat can go from one to the other here'];
  }

  /**
   * The pieces on which a drop can move what is dragged: an end those of its side.
   * @param {Offer[]} list
   * @returns {string[]}
   */
  goals(list) {
    const pieces = this.part.actions.state.view.grid?.pieces ?? [], { pull } = this;
    if (!pull || pull.kind !== 'end') return list.flatMap(partnersOf);
    return pieces.filter(piece => piece.side === pull.side && moveTo(pull, piece.id, list)).map(piece => piece.id);
  }

  /** @param {PointerEvent} event */
  dropped = async event => {
    const { pull } = this;
    if (!pull || event.pointerId !== pull.pointer) return;
    if (pull.moving) {
      this.aim({ x: event.clientX, y: event.clientY });
      performance.mark('dropped');
    }
    const { moving, target } = pull;
    this.stop();
    this.justEnded = moving;
    setTimeout(() => { this.justEnded = false; }, 50);
    if (!moving || !target) return;
    const partner = nameOf(target), { actions } = this.part;
    if (pull.kind !== 'piece') {
      // As with a place: a drop waits for what it costs.
      const move = moveTo(pull, partner, await actions.findMoves(pull.name));
      await actions.do(move ? move.gesture : { kind: 'move', exchanger: pull.name, piece: partner });
      return;
    }
    // The place that costs least is another one where costs are not known yet: so a drop waits for them.
    const offers = await actions.offer(pull.name), offer = offers.find(found => found.partner === partner);
    if (offer) await actions.place(offer, offers);
    else await actions.do({ kind: 'place', piece: pull.name, partner });
  };

  cancelled = () => this.stop();

  /** Nothing is dragged any more. */
  stop() {
    const { pull } = this, { picture } = this.part;
    this.pull = null;
    this.hint.hidden = true;
    window.removeEventListener('pointermove', this.moved);
    window.removeEventListener('pointerup', this.dropped);
    window.removeEventListener('pointercancel', this.cancelled);
    if (!pull || !picture) return;
    pull.line?.remove();
    pull.target?.classList.remove('aimed');
    picture.classList.remove('dragging');
    if (picture.hasPointerCapture(pull.pointer)) picture.releasePointerCapture(pull.pointer);
    this.part.mark(this.part.actions.state);
  }
}

/**
 * The move that a drop on a piece does: the best one, of an end one of it alone.
 * @param {Pull} pull
 * @param {string} piece
 * @param {Offer[]} list
 */
function moveTo(pull, piece, list) {
  const fitting = pull.kind === 'end' ? list.filter(move => partnersOf(move).length === 1) : list;
  return fitting.find(move => partnersOf(move).includes(piece));
}

/** @param {Element} target */
function nameOf(target) {
  return target.getAttribute('data-piece') ?? target.getAttribute('data-utility') ?? '';
}

/**
 * A place of the window in the picture.
 * @param {SVGSVGElement} picture
 * @param {{x: number, y: number}} at
 */
function inside(picture, at) {
  const frame = picture.getBoundingClientRect();
  return { x: at.x - frame.left, y: at.y - frame.top };
}

/** @param {SVGRectElement} shape */
function middleOf(shape) {
  const box = shape.getBBox();
  return { x: box.x + box.width / 2, y: box.y + box.height / 2 };
}
