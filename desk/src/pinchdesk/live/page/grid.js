// The grid diagram: with each view what has changed of it is drawn, and it is marked as the user points and chooses.

import { draw, fill, keyed, lettersChanged, make, whenDrawn } from './dom.js';
import { Geometry } from './geometry.js';
import {
  exchangerShape, jointShape, labelShape, lineShape, nameShape, pieceShape, pinchShape, rowShape,
} from './grid_shapes.js';
import { GridKeys } from './grid_keys.js';
import { meantAt } from './grid_hits.js';
import { chosenAt, markOne, partnersOf } from './grid_marks.js';
import { Drag } from './drag.js';
import { named, renewed, shape } from './renewing.js';
import { changed, viewChanged } from './state.js';

/** @typedef {import('./actions.js').Actions} Actions */
/** @typedef {import('./contract.js').GridPicture} GridPicture */
/** @typedef {import('./state.js').Chosen} Chosen */
/** @typedef {import('./state.js').State} State */

const WORDS = 'Grid diagram. Arrows go from place to place, Enter opens what is there.';
/** What the panel has left and right of the diagram, in pixels. */
const PADDING = 10;
/** The lanes that may come before what stands below the diagram moves. */
const SPARE = 2;
const MARKED = '[data-exchanger], [data-piece], [data-utility], [data-joint], [data-row]';

export class GridPart {
  /**
   * @param {HTMLElement} panel
   * @param {Actions} actions
   * @param {(chosen: Chosen, to?: string) => unknown} enter goes on to what is chosen, in the panel below
   */
  constructor(panel, actions, enter) {
    this.panel = panel;
    this.actions = actions;
    this.enter = enter;
    /** @type {SVGSVGElement | null} */
    this.picture = null;
    /** @type {HTMLElement | null} what the picture scrolls in, beside the names */
    this.places = null;
    /** @type {Geometry | null} */
    this.at = null;
    this.keys = new GridKeys(this);
    // Not on the picture: a browser gives the focus to one that listens to it, and draws a frame around it.
    panel.addEventListener('focusin', event => this.keys.entered(event));
    this.drag = new Drag(this);
    this.room = panel.clientWidth;
    /** @type {number[]} where the pinch lines stand */
    this.lines = [];
    this.scrolled = { left: 0, top: 0 };
    this.lanes = { rows: '', most: 0 };
    new ResizeObserver(() => this.resized()).observe(panel);
  }

  /** @type {import('./state.js').Renderer} */
  render = (state, before) => {
    if (viewChanged(state, before, 'grid', 'read_only')) this.redraw(state);
    if (changed(state, before, 'view', 'chosen', 'refusal', 'offers', 'moves', 'way', 'partners')) this.mark(state);
  };

  resized() {
    const room = this.panel.clientWidth;
    if (room === this.room && !lettersChanged()) return;
    this.lines = this.lines.map(line => line * room / this.room);
    this.room = room;
    this.redraw(this.actions.state);
    this.mark(this.actions.state);
  }

  /** @param {HTMLElement} wide */
  remember(wide) {
    this.scrolled = { left: wide.scrollLeft, top: wide.scrollTop };
  }

  /** @param {State} state */
  redraw(state) {
    const { view } = state;
    this.drag.stop();
    if (!view.grid) {
      this.picture = this.places = null;
      fill(this.panel, make('p', { class: 'none' }, view.read_only || 'There is no network to be shown.'),
        view.hold && make('p', { class: 'none' }, make('button', {
          type: 'button', 'data-key': 'hold', click: () => this.actions.do({ kind: 'hold' }),
        }, `Change it here, with ${view.hold}`)),
        view.read_only && make('div', { class: 'wide' }, make('img', {
          src: `picture/grid.svg?${view.version}`, alt: 'the grid diagram of this network',
        })));
      return;
    }
    const focused = this.panel.contains(document.activeElement);
    this.at = new Geometry(view.grid, this.room - PADDING, this.lines);
    this.lines = this.at.lines;
    const room = Math.ceil(this.at.heightOf(this.roomFor(view.grid)));
    document.documentElement.style.setProperty('--diagram', `${room}px`);
    this.draw(view.grid, this.at);
    const { picture } = this;
    if (picture) whenDrawn(() => this.keys.renew(picture, focused));
  }

  /**
   * For how many lanes there is room: a split that comes or goes moves nothing below the diagram.
   * @param {GridPicture} grid
   */
  roomFor(grid) {
    const rows = grid.rows.map(row => row.name).join(' ');
    if (rows !== this.lanes.rows || grid.lanes > this.lanes.most) this.lanes = { rows, most: grid.lanes + SPARE };
    return this.lanes.most;
  }

  /**
   * @param {GridPicture} grid
   * @param {Geometry} at
   */
  draw(grid, at) {
    const { places } = this, [names, picture] = places ? [...places.children] : [];
    const shownNames = renewed(namesShape(grid, at), asSvg(names));
    const shown = renewed(gridShape(grid, at), asSvg(picture));
    if (places && shown === picture) return;
    this.picture = /** @type {SVGSVGElement} */ (shown);
    this.listen(this.picture);
    /** @type {HTMLElement} */
    const wide = make('div', { class: 'wide', scroll: () => this.remember(wide) }, shownNames, shown);
    this.places = wide;
    fill(this.panel, wide);
    // Nothing is asked of the layout here unless it must be: that would cost more than all the drawing.
    if (this.scrolled.left || this.scrolled.top) whenDrawn(() => wide.scrollTo(this.scrolled));
  }

  /** @param {SVGSVGElement} picture */
  listen(picture) {
    picture.addEventListener('keydown', event => this.keys.pressed(event));
    picture.addEventListener('pointerdown', event => this.drag.down(event));
    picture.addEventListener('click', event => this.clicked(event));
    // A finger that drags a piece does not move the page.
    picture.addEventListener('touchmove', event => {
      if (this.drag.pull) event.preventDefault();
    }, { passive: false });
  }

  /** @param {MouseEvent} event */
  clicked(event) {
    const { picture, at } = this;
    if (this.drag.justEnded || !picture) return;
    const x = event.clientX - picture.getBoundingClientRect().left;
    this.actions.choose(chosenAt(event.target) ?? chosenAt(meantAt(asElement(event.target), x, at)));
  }

  /**
   * Gives the focus to a place of the diagram.
   * @param {string} key
   */
  focus(key) {
    const found = keyed(this.panel, key);
    if (found) found.focus();
    return Boolean(found);
  }

  /** @param {State} state */
  mark(state) {
    const { picture, places } = this;
    if (!picture || !places) return;
    const { chosen, refusal, view, offers, moves, way } = state;
    const dragged = this.drag.piece, still = dragged === null && chosen;
    const mover = this.drag.exchanger ?? (still && still.kind === 'exchanger' ? still.name : null);
    const matched = mover ? null : dragged ?? (still && still.kind === 'piece' ? still.name : null);
    const list = mover ? moves && moves.exchanger === mover && moves.list
      : matched !== null && offers && offers.piece === matched && offers.list;
    const partners = new Set(mover ? this.drag.goals(list || []) : (list || []).flatMap(partnersOf));
    places.classList.toggle('matching', partners.size > 0);
    const wrong = [...(refusal ? refusal.places : []), ...view.verdict.places];
    const legs = new Map(way ? way.legs.map(leg => [leg.exchanger, leg.gains]) : []);
    places.classList.toggle('pointing', legs.size > 0);
    const marks = { chosen, matched, partners, pointed: state.partners, places: wrong, legs };
    for (const element of places.querySelectorAll(MARKED)) {
      if (element instanceof SVGElement) markOne(element, marks);
    }
    this.signs(picture, legs);
    this.drag.tell();
  }

  /**
   * The exchangers of a way with what each gains or loses.
   * @param {SVGSVGElement} picture
   * @param {Map<string, boolean>} legs
   */
  signs(picture, legs) {
    const over = picture.querySelector('.over'), { at } = this, { grid } = this.actions.state.view;
    if (!over || !at || !grid) return;
    const ends = grid.exchangers.filter(exchanger => legs.has(exchanger.name));
    over.replaceChildren(...ends.map(exchanger => draw('text', {
      class: 'sign', x: at.x(exchanger.hot_x) + at.radius + 2 * at.scale, y: at.y(exchanger.hot_y) + 20 * at.scale,
    }, legs.get(exchanger.name) ? '+' : '−')));
  }
}

/** @param {EventTarget | null} target */
function asElement(target) {
  return target instanceof Element ? target : null;
}

/** @param {Element | undefined} found */
function asSvg(found) {
  return found instanceof SVGElement ? found : null;
}

/**
 * @param {GridPicture} grid
 * @param {Geometry} at
 */
function gridShape(grid, at) {
  const sides = new Map(grid.rows.map(row => [row.name, row.side]));
  /** @param {string} stream */
  const side = stream => sides.get(stream) ?? 'hot';
  const width = Math.ceil(at.width), height = Math.ceil(at.height);
  return shape('svg', {
    class: 'grid', role: 'group', 'aria-label': WORDS, width, height, viewBox: `0 0 ${width} ${height}`,
    'font-size': at.size,
  },
  ...grid.pinches.map((pinch, place) => pinchShape(pinch, at.levels[place], at)),
  ...grid.rows.map(row => named(`row ${row.name}`, rowShape(row, at))),
  ...counted('line', grid.lines, line => lineShape(line, side(line.stream), at)),
  ...counted('joint', grid.joints, joint => jointShape(joint, side(joint.stream), at)),
  named('pulled', shape('g', { class: 'pulled' })),
  ...grid.exchangers.map(bar => named(`exchanger ${bar.name}`, exchangerShape(bar, grid, at))),
  ...counted('label', grid.lines.filter(line => line.label), line => labelShape(line, at)),
  ...grid.pieces.map(piece => named(`piece ${piece.id}`, pieceShape(piece, at))),
  named('over', shape('g', { class: 'over' })));
}

/**
 * The shapes of things that have no name: each is told apart by its place on its stream.
 * @template {{stream: string}} Thing
 * @param {string} kind
 * @param {Thing[]} things
 * @param {(thing: Thing) => import('./renewing.js').Shape} shapeOf
 */
function counted(kind, things, shapeOf) {
  /** @type {Map<string, number>} */
  const counts = new Map();
  return things.map(thing => {
    const count = counts.get(thing.stream) ?? 0;
    counts.set(thing.stream, count + 1);
    return named(`${kind} ${count} ${thing.stream}`, shapeOf(thing));
  });
}

/**
 * The names of all rows, which stay where the diagram is scrolled.
 * @param {GridPicture} grid
 * @param {Geometry} at
 */
function namesShape(grid, at) {
  const width = Math.ceil(at.names), height = Math.ceil(at.height);
  return shape('svg', {
    class: 'grid names', width, height, viewBox: `0 0 ${width} ${height}`, 'font-size': at.size,
  }, ...grid.rows.map(row => named(row.name, nameShape(row, at))));
}
