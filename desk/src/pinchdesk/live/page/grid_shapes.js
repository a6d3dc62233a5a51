// The shapes of the grid diagram: streams, splits, exchangers, open pieces, pinches.

import { textWidth } from './dom.js';
import { dutyText, lowerEnd, pieceText } from './geometry.js';
import { shape } from './renewing.js';

/** @typedef {import('./contract.js').ExchangerBar} ExchangerBar */
/** @typedef {import('./contract.js').GridPicture} GridPicture */
/** @typedef {import('./contract.js').JointLine} JointLine */
/** @typedef {import('./contract.js').BranchLine} BranchLine */
/** @typedef {import('./contract.js').OpenPill} OpenPill */
/** @typedef {import('./contract.js').PinchLine} PinchLine */
/** @typedef {import('./contract.js').GridRow} GridRow */
/** @typedef {import('./geometry.js').Geometry} Geometry */

/**
 * A text of the diagram.
 * @param {number} x
 * @param {number} y
 * @param {string} text
 * @param {import('./dom.js').Attributes} [more]
 */
function write(x, y, text, more = {}) {
  return shape('text', { x: round(x), y: round(y), ...more }, text);
}

/** @param {number} length */
function round(length) {
  return Math.round(length * 10) / 10;
}

/**
 * @param {PinchLine} pinch
 * @param {number} level
 * @param {Geometry} at
 */
export function pinchShape(pinch, level, at) {
  const x = at.x(pinch.x), top = at.top - 30 * at.scale, bottom = at.height - 6 * at.scale;
  const half = textWidth(pinch.text, at.size) / 2 + 4 * at.scale;
  const middle = Math.max(half, Math.min(x, at.width - half));
  // The column of the line alone is no band.
  const band = pinch.end - pinch.begin > 1 && shape('rect', {
    class: 'band', x: round(at.x(pinch.begin)), y: top, width: round(at.x(pinch.end) - at.x(pinch.begin)),
    height: bottom - top,
  }, shape('title', {}, 'here stands what works across the pinch'));
  return shape('g', { class: 'pinch' }, band,
    shape('line', { x1: round(x), y1: top, x2: round(x), y2: bottom }),
    write(middle, top - (6 + 15 * level) * at.scale, pinch.text, { 'text-anchor': 'middle' }));
}

/**
 * What stands at the ends of a row; of a utility its line too, on which an open piece can be dropped.
 * @param {GridRow} row
 * @param {Geometry} at
 */
export function rowShape(row, at) {
  const y = at.y(row.y), left = at.x(row.begin), right = at.x(row.end), scale = at.scale;
  const ends = row.kind === 'utility' && { x1: round(left), y1: y, x2: round(right), y2: y };
  return rowGroup(row,
    ends && shape('line', { class: 'reach', ...ends }), ends && shape('line', { class: 'level', ...ends }),
    write(left - 8 * scale, y + 4 * scale, row.first, { class: 'end', 'text-anchor': 'end' }),
    write(right + 9 * scale, y + 4 * scale, row.last, { class: 'end' }), shape('title', {}, row.text));
}

/**
 * The name of a row; that of a utility stands in a box, on which an open piece can be dropped too.
 * @param {GridRow} row
 * @param {Geometry} at
 */
export function nameShape(row, at) {
  const y = at.y(row.y), scale = at.scale, utility = row.kind === 'utility';
  const wide = textWidth(row.name, at.size * 1.1, true) + 20 * scale;
  return rowGroup(row,
    utility && shape('rect', {
      class: 'box', x: 12 * scale, y: y - 13 * scale, width: round(wide), height: 26 * scale, rx: 4 * scale,
    }),
    write(utility ? 22 * scale : 12 * scale, y + (row.detail && !utility ? 0 : 4 * scale), row.name, { class: 'name' }),
    row.detail && write(12 * scale, y + (utility ? 26 : 13) * scale, row.detail, { class: 'detail' }),
    shape('title', {}, row.text));
}

/**
 * @param {GridRow} row
 * @param {...import('./renewing.js').Part} parts
 */
function rowGroup(row, ...parts) {
  return shape('g', {
    class: `row ${row.kind} ${row.side}`, 'data-row': row.name, 'data-utility': row.kind === 'utility' && row.name,
  }, ...parts);
}

/**
 * @param {BranchLine} line
 * @param {string} side
 * @param {Geometry} at
 */
export function lineShape(line, side, at) {
  const y = at.y(line.y), from = at.x(line.begin), to = at.x(line.end), scale = at.scale;
  const ends = { x1: round(from), y1: y, x2: round(to), y2: y };
  const way = side === 'hot' ? 1 : -1, tip = way > 0 ? Math.max(from, to) : Math.min(from, to);
  const back = round(tip - way * 8 * scale), high = 6 * scale;
  return shape('g', { class: `line ${side}`, 'data-lane': line.y },
    shape('line', { class: 'touch', ...ends }), shape('line', ends),
    line.arrow && shape('path', { class: 'arrow', d: `M${back} ${y - high}L${round(tip)} ${y}L${back} ${y + high}` }));
}

/**
 * The temperature or the share above a line: no bar goes through it.
 * @param {BranchLine} line
 * @param {Geometry} at
 */
export function labelShape(line, at) {
  return write(at.x(line.label_x), at.y(line.y) - at.over(line), line.label, {
    class: line.kind, 'text-anchor': 'middle',
  });
}

/**
 * @param {JointLine} joint
 * @param {string} side
 * @param {Geometry} at
 */
export function jointShape(joint, side, at) {
  const x = at.x(joint.x), first = at.y(joint.first), last = at.y(joint.last);
  const named = joint.id ? {
    'data-joint': joint.id, 'data-key': `joint ${joint.id} ${joint.x}`, role: 'button', tabindex: -1,
    'aria-label': `split of ${joint.stream}: ${joint.shares.map(share => `${share} %`).join(', ')}`,
  } : {};
  return shape('g', { class: `joint ${side}`, ...named },
    shape('line', { class: 'touch', x1: round(x), y1: first, x2: round(x), y2: last }),
    shape('line', { class: 'upright', x1: round(x), y1: first, x2: round(x), y2: last }));
}

/**
 * The bar of an exchanger with its name at both ends and its duty below it.
 * @param {ExchangerBar} exchanger
 * @param {GridPicture} grid
 * @param {Geometry} at
 */
export function exchangerShape(exchanger, grid, at) {
  const [x, y, u, v] = [at.x(exchanger.hot_x), at.y(exchanger.hot_y), at.x(exchanger.cold_x), at.y(exchanger.cold_y)];
  const bend = Math.min(at.lane / 3, 14 * at.scale);
  const middle = at.y(grid.band) + (x === u ? 0 : slantOf(exchanger, grid) * at.scale);
  const way = x === u ? `M${round(x)} ${y}V${v}`
    : `M${round(x)} ${y}V${middle - bend}L${round(u)} ${middle + bend}V${v}`;
  const low = lowerEnd(exchanger);
  return shape('g', {
    class: `exchanger ${exchanger.kind} ${exchanger.where || 'nowhere'}${exchanger.fault ? ' fault' : ''}`,
    'data-exchanger': exchanger.name, 'data-key': `exchanger ${exchanger.name}`, role: 'button', tabindex: -1,
    'aria-label': exchanger.text,
  },
  shape('title', {}, exchanger.text),
  shape('path', { class: 'touch', d: way }), shape('path', { class: 'bar', d: way }),
  endShape(exchanger.name, x, y, 'hot', at), endShape(exchanger.name, u, v, 'cold', at),
  write(at.x(low.x), at.y(low.y) + at.radius + 12 * at.scale, dutyText(exchanger), {
    class: 'duty', 'text-anchor': 'middle',
  }));
}

/**
 * By how much the slant of an exchanger lies lower than the middle, so that those beside one another do not cross.
 * @param {ExchangerBar} exchanger
 * @param {GridPicture} grid
 */
function slantOf(exchanger, grid) {
  const slants = grid.exchangers.filter(bar => bar.hot_x !== bar.cold_x).sort((one, other) => one.hot_x - other.hot_x);
  return (slants.indexOf(exchanger) - (slants.length - 1) / 2) * Math.min(10, 40 / slants.length) || 0;
}

/**
 * @param {string} name
 * @param {number} x
 * @param {number} y
 * @param {string} side
 * @param {Geometry} at
 */
function endShape(name, x, y, side, at) {
  const wide = at.pill(name);
  return shape('g', { class: `ending ${side}`, 'data-end': side },
    shape('rect', {
      x: round(x - wide / 2), y: round(y - at.radius), width: round(wide), height: 2 * at.radius, rx: at.radius,
    }),
    write(x, y + at.size * 0.36, name, { 'text-anchor': 'middle' }));
}

/**
 * @param {OpenPill} piece
 * @param {Geometry} at
 */
export function pieceShape(piece, at) {
  const x = at.x(piece.x), y = at.y(piece.y), text = pieceText(piece), wide = at.pill(text);
  return shape('g', {
    class: `piece ${piece.side}${piece.fault ? ' fault' : ''}`, 'data-piece': piece.id, 'data-key': `piece ${piece.id}`,
    'data-on': piece.y, role: 'button', tabindex: -1, 'aria-haspopup': 'true',
    'aria-label': piece.text,
  },
  shape('title', {}, piece.text),
  shape('rect', {
    x: round(x - wide / 2), y: round(y - at.radius), width: round(wide), height: 2 * at.radius, rx: at.radius,
  }),
  write(x, y + at.size * 0.36, text, { 'text-anchor': 'middle' }));
}
