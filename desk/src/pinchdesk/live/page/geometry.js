// Where the things of the grid diagram stand, in CSS pixels: the columns fill the panel, and where they are too many
// for it they are as near as texts allow. Pinch lines stay where they were while that leaves room on both sides.

import { letterScale, textWidth } from './dom.js';

/** @typedef {import('./contract.js').ExchangerBar} ExchangerBar */
/** @typedef {import('./contract.js').GridPicture} GridPicture */
/** @typedef {import('./contract.js').BranchLine} BranchLine */

/** @typedef {{x: number, wide: number}} Beside what stands in a lane: in which column, how wide */

/** The usual distances, for letters of 16 pixels. */
const LANE = 54, LEAST = 25, TOP = 50, GAP = 10;
/** On no side of a pinch are columns nearer than this part of what they would be with the same room for each. */
const NARROWEST = 0.55;

export class Geometry {
  /**
   * @param {GridPicture} grid
   * @param {number} room the width of the panel
   * @param {number[]} lines where the pinch lines stood before, from the left end
   */
  constructor(grid, room, lines = []) {
    const scale = letterScale();
    this.scale = scale;
    this.size = 12.5 * scale;
    this.radius = 13 * scale;
    const names = Math.max(...grid.rows.map(row => Math.max(
      textWidth(row.name, this.size * 1.1, true) + (row.kind === 'utility' ? 24 * scale : 0),
      textWidth(row.detail, this.size))), 30);
    const firsts = Math.max(...grid.rows.map(row => row.begin < 0 ? textWidth(row.first, this.size) : 0), 20);
    const lasts = Math.max(...grid.rows.map(row => textWidth(row.last, this.size)), 20);
    /** The names stay where the diagram is scrolled: they are a picture of their own. */
    this.names = (GAP + 4) * scale + names + 4 * scale;
    this.left = firsts + GAP * scale;
    this.right = lasts + 2 * GAP * scale;
    this.pills = pillsOf(grid, text => this.pill(text));
    const least = Math.max(LEAST * scale, ...[this.pills, labelsOf(grid, this.size), dutiesOf(grid, this.size)]
      .flatMap(lanes => [...lanes.values()].map(lane => leastPitch(lane, 4 * scale))));
    const columns = grid.columns + 0.5, fitting = (room - this.names - this.left - this.right) / columns;
    const pitch = Math.max(least, fitting);
    /** Columns and where they are, from the left end of the rows to their right end; between them it is even. */
    this.marks = marksOf(grid, pitch, Math.max(least, NARROWEST * pitch), lines);
    this.levels = levelsOf(grid.pinches.map(pinch => ({
      x: this.x(pinch.x), wide: textWidth(pinch.text, this.size) + GAP * scale,
    })));
    this.top = (TOP + 16 * Math.max(0, ...this.levels)) * scale;
    this.width = this.left + this.right + pitch * columns;
    this.height = this.heightOf(grid.lanes);
  }

  /**
   * How high a diagram of so many lanes is.
   * @param {number} lanes
   */
  heightOf(lanes) {
    return this.top + (LANE * Math.max(lanes - 1, 0) + 44) * this.scale;
  }

  /**
   * How wide the pill of a text is.
   * @param {string} text
   */
  pill(text) {
    return Math.max(2 * this.radius, textWidth(text, this.size, true) + 10 * this.scale);
  }

  /** @param {number} column */
  x(column) {
    const { marks } = this;
    const at = Math.max(1, Math.min(marks.length - 1, marks.findIndex(mark => mark.column >= column)));
    const [one, other] = marks.slice(at - 1, at + 1);
    const part = (column - one.column) / (other.column - one.column);
    return this.left + one.x + part * (other.x - one.x);
  }

  /** Where the pinch lines stand, from the left end of the rows. */
  get lines() {
    return this.marks.slice(1, -1).map(mark => mark.x);
  }

  /** @param {number} lane */
  y(lane) {
    return this.top + lane * LANE * this.scale;
  }

  /** The height of a lane. */
  get lane() {
    return LANE * this.scale;
  }

  /**
   * The height of a label over its line: beside pills where it has room there, else above them.
   * @param {BranchLine} line
   */
  over(line) {
    const half = textWidth(line.label, this.size) / 2 + 2 * this.scale, x = this.x(line.label_x);
    const pills = this.pills.get(line.y) ?? [];
    const beside = pills.every(pill => Math.abs(this.x(pill.x) - x) >= half + pill.wide / 2);
    return beside ? 7 * this.scale : this.radius + 4 * this.scale;
  }
}

/**
 * The ends of the rows and the pinches between them, in columns and in pixels from the left end.
 * @param {GridPicture} grid
 * @param {number} pitch how far columns are from one another in all
 * @param {number} narrow how near they may come on one side of a pinch
 * @param {number[]} lines
 */
function marksOf(grid, pitch, narrow, lines) {
  const first = -0.75, last = grid.columns - 0.25, right = (last - first) * pitch;
  const pinches = [...new Set(grid.pinches.map(pinch => pinch.x))].sort((one, other) => one - other);
  const marks = [{ column: first, x: 0 }];
  pinches.forEach((column, at) => {
    const before = marks[at], wanted = lines.length === pinches.length ? lines[at] : (column - first) * pitch;
    const most = right - (last - column) * narrow;
    marks.push({ column, x: Math.max(before.x + (column - before.column) * narrow, Math.min(wanted, most)) });
  });
  return [...marks, { column: last, x: right }];
}

/**
 * The pills of each lane: ends of exchangers, and open pieces.
 * @param {GridPicture} grid
 * @param {(text: string) => number} pill
 */
function pillsOf(grid, pill) {
  return byLane([
    ...grid.exchangers.map(bar => ({ y: bar.hot_y, x: bar.hot_x, wide: pill(bar.name) })),
    ...grid.exchangers.map(bar => ({ y: bar.cold_y, x: bar.cold_x, wide: pill(bar.name) })),
    ...grid.pieces.map(piece => ({ y: piece.y, x: piece.x, wide: pill(pieceText(piece)) })),
  ]);
}

/**
 * @param {GridPicture} grid
 * @param {number} size
 */
function labelsOf(grid, size) {
  return byLane(grid.lines.filter(line => line.label)
    .map(line => ({ y: line.y, x: line.label_x, wide: textWidth(line.label, size) })));
}

/**
 * The duties below exchangers.
 * @param {GridPicture} grid
 * @param {number} size
 */
function dutiesOf(grid, size) {
  return byLane(grid.exchangers.map(bar => ({ ...lowerEnd(bar), wide: textWidth(dutyText(bar), size, true) })));
}

/**
 * The end of an exchanger that stands lower.
 * @param {ExchangerBar} bar
 */
export function lowerEnd(bar) {
  return bar.cold_y >= bar.hot_y ? { x: bar.cold_x, y: bar.cold_y } : { x: bar.hot_x, y: bar.hot_y };
}

/**
 * The duty, with a sign where the exchanger is wrong, and with what it carries across a pinch: not by its colour alone.
 * @param {ExchangerBar} bar
 */
export function dutyText(bar) {
  const across = bar.where === 'across' && bar.crossing ? ` (↯ ${crossingText(bar.crossing)})` : '';
  return (bar.fault ? '⚠ ' : '') + bar.duty + across;
}

/**
 * What an exchanger carries across a pinch, down unless it says so.
 * @param {string} crossing
 */
export function crossingText(crossing) {
  return crossing.startsWith('-') ? `${crossing.slice(1)} up` : crossing;
}

/** @param {import('./contract.js').OpenPill} piece */
export function pieceText(piece) {
  return (piece.fault ? '⚠ ' : '') + piece.duty;
}

/**
 * @param {(Beside & {y: number})[]} things
 * @returns {Map<number, Beside[]>}
 */
function byLane(things) {
  /** @type {Map<number, Beside[]>} */
  const lanes = new Map();
  for (const { y, x, wide } of things) lanes.set(y, [...lanes.get(y) ?? [], { x, wide }]);
  return lanes;
}

/**
 * How far apart columns have to be so that nothing of a lane touches its neighbour.
 * @param {Beside[]} lane
 * @param {number} gap
 */
function leastPitch(lane, gap) {
  const sorted = [...lane].sort((one, other) => one.x - other.x);
  return Math.max(0, ...sorted.slice(1).map((other, at) => {
    const one = sorted[at];
    return other.x > one.x ? ((one.wide + other.wide) / 2 + gap) / (other.x - one.x) : 0;
  }));
}

/**
 * Texts above pinches that are near lie above one another: the level of each.
 * @param {Beside[]} texts
 */
function levelsOf(texts) {
  /** @type {number[]} */
  const ends = [];
  return texts.map(({ x, wide }) => {
    let level = ends.findIndex(end => end < x - wide / 2);
    if (level < 0) level = ends.length;
    ends[level] = x + wide / 2;
    return level;
  });
}
