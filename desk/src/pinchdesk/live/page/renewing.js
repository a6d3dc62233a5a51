// Pictures that are described first. Of one that is shown already only what is another than before is changed: to make
// all of it anew costs more than anything else on the page.

import { draw } from './dom.js';

/** @typedef {import('./dom.js').Attributes} Attributes */
/** @typedef {Shape | string | null | undefined | false} Part */

/**
 * @typedef {object} Shape an element that is to be; of its children either all are shapes, or it has a text
 * @property {keyof SVGElementTagNameMap} name
 * @property {Attributes} attributes none of them a function
 * @property {Shape[]} children
 * @property {string} text
 * @property {string} [key] what tells it apart from the other children
 */

/** @typedef {{shape: Shape, children: SVGElement[]}} Shown what an element was made of; others may stand in it too */

/** @type {WeakMap<SVGElement, Shown>} */
const SHOWN = new WeakMap();

/**
 * @param {keyof SVGElementTagNameMap} name
 * @param {Attributes} [attributes]
 * @param {...Part} parts
 * @returns {Shape}
 */
export function shape(name, attributes = {}, ...parts) {
  /** @type {Shape[]} */
  const children = [];
  let text = '';
  for (const part of parts) {
    if (typeof part === 'string') text += part;
    else if (part) children.push(part);
  }
  return { name, attributes, children, text };
}

/**
 * A shape that is told apart from those beside it, whatever order they have.
 * @param {string} key
 * @param {Shape} of
 * @returns {Shape}
 */
export function named(key, of) {
  return { ...of, key };
}

/**
 * The element of a shape: the one that is given, changed where it has to be, or a new one.
 * @param {Shape} wanted
 * @param {SVGElement | null} [element]
 * @returns {SVGElement}
 */
export function renewed(wanted, element = null) {
  const before = element && SHOWN.get(element);
  if (!element || !before || before.shape.name !== wanted.name) return made(wanted);
  renewAttributes(element, before.shape.attributes, wanted.attributes);
  if (before.shape.text !== wanted.text) element.textContent = wanted.text;
  SHOWN.set(element, { shape: wanted, children: renewedChildren(element, before, wanted) });
  return element;
}

/**
 * @param {Shape} wanted
 * @returns {SVGElement}
 */
function made(wanted) {
  const children = wanted.children.map(made);
  const element = draw(wanted.name, wanted.attributes, wanted.text, ...children);
  SHOWN.set(element, { shape: wanted, children });
  return element;
}

/**
 * @param {SVGElement} element
 * @param {Attributes} before
 * @param {Attributes} now
 */
function renewAttributes(element, before, now) {
  for (const [name, value] of Object.entries(now)) {
    if (value === before[name]) continue;
    if (value === false || value === null || value === undefined) element.removeAttribute(name);
    else element.setAttribute(name, String(value));
  }
  for (const name of Object.keys(before)) if (!(name in now)) element.removeAttribute(name);
}

/**
 * A child is the one of the same key before; without a key it is the one that was as far along among those of its name.
 * @param {SVGElement} element
 * @param {Shown} before
 * @param {Shape} wanted
 * @returns {SVGElement[]}
 */
function renewedChildren(element, before, wanted) {
  if (!before.children.length && !wanted.children.length) return [];
  const names = keysOf(before.shape.children), known = new Map(before.children.map((child, at) => [names[at], child]));
  const keys = keysOf(wanted.children);
  const children = wanted.children.map((child, at) => {
    const same = known.get(keys[at]);
    known.delete(keys[at]);
    return renewed(child, same);
  });
  const kept = new Set(children);
  for (const child of before.children) if (!kept.has(child)) child.remove();
  let next = element.firstChild;
  for (const child of children) {
    if (child === next) next = child.nextSibling;
    else element.insertBefore(child, next);
  }
  return children;
}

/** @param {Shape[]} shapes */
function keysOf(shapes) {
  /** @type {Map<string, number>} */
  const counts = new Map();
  return shapes.map(({ name, key }) => {
    if (key !== undefined) return `${name}: ${key}`;
    const count = counts.get(name) ?? 0;
    counts.set(name, count + 1);
    return `${name} ${count}`;
  });
}
