// What a hand means at a place of the grid diagram: an open piece takes the line of its stream beside it too.

/** @typedef {import('./geometry.js').Geometry} Geometry */

/**
 * The open piece or the utility at an element. On a line it is the nearest piece of that lane up to the next pinch.
 * @param {Element | null | undefined} element
 * @param {number} x where the hand is, in the picture
 * @param {Geometry | null} at
 * @returns {Element | null}
 */
export function meantAt(element, x, at) {
  const found = element?.closest('[data-piece], [data-exchanger], [data-utility], [data-lane]') ?? null;
  const lane = found?.getAttribute('data-lane'), picture = found?.closest('svg');
  if (!lane || !picture || !at) return found;
  const pinches = at.lines.map(line => line + at.left);
  /** @type {{piece: Element, far: number}[]} */
  const pieces = [];
  for (const piece of picture.querySelectorAll(`[data-piece][data-on="${lane}"]`)) {
    const middle = middleOf(piece.querySelector('rect'));
    if (middle === null || pinches.some(line => (line - x) * (line - middle) < 0)) continue;
    pieces.push({ piece, far: Math.abs(middle - x) });
  }
  pieces.sort((one, other) => one.far - other.far);
  return pieces.length ? pieces[0].piece : found;
}

/** @param {Element | null} shape */
function middleOf(shape) {
  if (!shape) return null;
  return Number(shape.getAttribute('x')) + Number(shape.getAttribute('width')) / 2;
}
