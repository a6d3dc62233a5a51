// What is marked in the grid diagram: what is chosen, pointed at, wrong, and who may be a partner.

/** @typedef {import('./contract.js').Mark} Mark */
/** @typedef {import('./contract.js').Offer} Offer */
/** @typedef {import('./state.js').Chosen} Chosen */

/**
 * What stands at an element of the diagram.
 * @param {EventTarget | null} target
 * @returns {Chosen | null}
 */
export function chosenAt(target) {
  const found = target instanceof Element ? target.closest('[data-exchanger], [data-piece], [data-joint]') : null;
  if (!(found instanceof SVGElement)) return null;
  const { exchanger, piece, joint } = found.dataset;
  if (exchanger !== undefined) return { kind: 'exchanger', name: exchanger };
  return piece !== undefined ? { kind: 'piece', name: piece } : { kind: 'joint', name: joint ?? '' };
}

/**
 * The piece or the utility of an offer; where both ends are moved, both pieces.
 * @param {Offer} offer
 * @returns {string[]}
 */
export function partnersOf(offer) {
  const { other } = offer.gesture;
  return typeof other === 'string' ? [offer.partner, other] : [offer.partner];
}

/**
 * @typedef {object} Marks
 * @property {Chosen | null} chosen
 * @property {string | null} matched the piece whose partners are shown
 * @property {Set<string>} partners
 * @property {string[]} pointed
 * @property {Mark[]} places
 * @property {Map<string, boolean>} legs
 */

/**
 * @param {SVGElement} element
 * @param {Marks} marks
 */
export function markOne(element, marks) {
  const { exchanger, piece, joint, utility, row } = element.dataset;
  const kind = exchanger !== undefined ? 'exchanger' : piece !== undefined ? 'piece'
    : joint !== undefined ? 'joint' : 'row';
  const name = exchanger ?? piece ?? joint ?? row ?? '';
  const chosen = marks.chosen !== null && marks.chosen.kind === kind && marks.chosen.name === name;
  const place = kind === 'row' ? (utility !== undefined ? 'utility' : 'stream') : kind;
  element.classList.toggle('chosen', chosen);
  element.classList.toggle('wrong', marks.places.some(wrong => wrong.kind === place && wrong.name === name));
  const pressed = String(chosen), named = kind === 'exchanger' || kind === 'piece';
  if (named && element.getAttribute('aria-pressed') !== pressed) element.setAttribute('aria-pressed', pressed);
  if (kind === 'exchanger') element.classList.toggle('leg', marks.legs.has(name));
  if (kind === 'piece' || utility !== undefined) {
    const partner = marks.partners.has(name);
    element.classList.toggle('partner', partner);
    element.classList.toggle('pale', marks.partners.size > 0 && !partner && name !== marks.matched);
    element.classList.toggle('pointed', marks.pointed.includes(name));
  }
}
