// Elements are made here, texts always as texts: no name of a stream is ever read as markup.

/** @typedef {string | number | boolean | null | undefined | ((event: any) => unknown)} Attribute */
/** @typedef {Record<string, Attribute>} Attributes */
/** @typedef {Node | string | null | undefined | false} Child */

const SVG = 'http://www.w3.org/2000/svg';
const CONTROL = 'button:not(:disabled), input, select, textarea';

/**
 * @template {Element} Kind
 * @param {Kind} element
 * @param {Attributes} attributes a function is called at the event of this name
 * @param {Child[]} children
 * @returns {Kind}
 */
function furnish(element, attributes, children) {
  for (const [name, value] of Object.entries(attributes)) {
    if (typeof value === 'function') element.addEventListener(name, value);
    else if (value === true) element.setAttribute(name, '');
    else if (value !== false && value !== null && value !== undefined) element.setAttribute(name, String(value));
  }
  for (const child of children) if (child) element.append(child);
  return element;
}

/**
 * An element of the page.
 * @template {keyof HTMLElementTagNameMap} Name
 * @param {Name} name
 * @param {Attributes} [attributes]
 * @param {...Child} children
 * @returns {HTMLElementTagNameMap[Name]}
 */
export function make(name, attributes = {}, ...children) {
  return furnish(document.createElement(name), attributes, children);
}

/**
 * An element of a picture.
 * @template {keyof SVGElementTagNameMap} Name
 * @param {Name} name
 * @param {Attributes} [attributes]
 * @param {...Child} children
 * @returns {SVGElementTagNameMap[Name]}
 */
export function draw(name, attributes = {}, ...children) {
  return furnish(document.createElementNS(SVG, name), attributes, children);
}

/**
 * The element of the page with this id.
 * @param {string} id
 * @returns {HTMLElement}
 */
export function part(id) {
  const found = document.getElementById(id);
  if (!found) throw new Error(`the page has no part ${id}`);
  return found;
}

/** @typedef {HTMLInputElement | HTMLTextAreaElement} Field */

/**
 * @param {Element | null} element
 * @returns {element is Field}
 */
function isField(element) {
  return element instanceof HTMLInputElement || element instanceof HTMLTextAreaElement;
}

/**
 * Whether a text was typed here that nothing was asked with yet.
 * @param {EventTarget | null} element
 * @returns {element is Field}
 */
export function hasTyped(element) {
  return element instanceof Element && isField(element) && element.type !== 'range'
    && element.value !== element.defaultValue && element.value !== element.dataset.sent;
}

/**
 * Asks with what is typed in some fields, once. Where it is refused it stays there, marked; else nothing of it is left.
 * @param {Field[]} fields
 * @param {() => Promise<boolean>} question gives whether it was done
 */
export async function asks(fields, question) {
  if (fields.some(field => field.dataset.sent !== undefined)) return false;
  for (const field of fields) field.dataset.sent = field.value;
  const done = await question();
  for (const field of done ? [] : fields) {
    delete field.dataset.sent;
    field.setAttribute('aria-invalid', 'true');
    field.addEventListener('input', () => field.removeAttribute('aria-invalid'), { once: true });
  }
  return done;
}

/** @type {(() => unknown)[] | null} what waits until all is drawn; null while nothing is being drawn */
let waiting = null;

/**
 * Draws, and then does what asks the layout: between two changes it would have to be made anew each time.
 * @param {() => void} draws
 */
export function drawTogether(draws) {
  if (waiting) {
    draws();
    return;
  }
  /** @type {(() => unknown)[]} */
  const works = waiting = [];
  try {
    draws();
  } finally {
    waiting = null;
    for (const work of works) work();
  }
}

/**
 * Does something that asks the layout, as the focus and scrolling do, once all that is being drawn is there.
 * @param {() => unknown} work
 */
export function whenDrawn(work) {
  if (waiting) waiting.push(work);
  else work();
}

/**
 * Puts new children into a part. What had the focus has it again where it still is (by its `data-key`), with what was
 * being typed and where; else the first control of the part has it, or the diagram, so that no key goes nowhere.
 * @param {Element} parent
 * @param {...Child} children
 */
export function fill(parent, ...children) {
  const focused = document.activeElement;
  const inside = focused !== null && parent.contains(focused);
  const key = inside ? focused.getAttribute('data-key') : null;
  const typed = hasTyped(focused) ? focused.value : null;
  const range = isField(focused) && focused.type !== 'range' ? [focused.selectionStart, focused.selectionEnd] : null;
  parent.replaceChildren(...children.flatMap(child => child ? [child] : []));
  if (!inside) return;
  const again = key === null ? null : keyed(parent, key);
  if (again && isField(again) && typed !== null) again.value = typed;
  whenDrawn(() => {
    const next = again ?? parent.querySelector(CONTROL) ?? document.querySelector('#grid [tabindex="0"]');
    if (next instanceof HTMLElement || next instanceof SVGElement) next.focus({ preventScroll: true });
    if (again && isField(again) && range && range[0] !== null) again.setSelectionRange(range[0], range[1]);
  });
}

/**
 * The element inside that has this key.
 * @param {Element} parent
 * @param {string} key
 * @returns {HTMLElement | SVGElement | null}
 */
export function keyed(parent, key) {
  const found = parent.querySelector(`[data-key="${CSS.escape(key)}"]`);
  return found instanceof HTMLElement || found instanceof SVGElement ? found : null;
}

let scale = 0;

/** How much larger than usual the reader has the letters: pictures grow with them. */
export function letterScale() {
  if (!scale) lettersChanged();
  return scale;
}

/** Measures the letters again, and says whether they are larger or smaller than before. */
export function lettersChanged() {
  const before = scale;
  scale = parseFloat(getComputedStyle(document.documentElement).fontSize) / 16 || 1;
  return scale !== before;
}

let letters = '';
/** @type {Map<string, number>} how wide texts are that were measured */
const widths = new Map();
/** So many of them are kept. */
const MOST_WIDTHS = 5000;
const ruler = document.createElement('canvas').getContext('2d');

/**
 * How wide a text is in the letters of the page.
 * @param {string} text
 * @param {number} size in CSS pixels
 * @param {boolean} [bold]
 */
export function textWidth(text, size, bold = false) {
  if (!ruler) return text.length * size * 0.62;
  const key = `${size} ${bold} ${text}`, known = widths.get(key);
  if (known !== undefined) return known;
  letters ||= getComputedStyle(document.body).fontFamily;
  ruler.font = `${bold ? 'bold ' : ''}${size}px ${letters}`;
  const { width } = ruler.measureText(text);
  if (widths.size >= MOST_WIDTHS) widths.clear();
  widths.set(key, width);
  return width;
}
