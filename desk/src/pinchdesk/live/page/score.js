// How good the network is, and the steps that led to it.

import { draw, fill, make, whenDrawn } from './dom.js';
import { viewChanged } from './state.js';

/** @typedef {import('./actions.js').Actions} Actions */
/** @typedef {import('./contract.js').ScoreView} ScoreView */
/** @typedef {import('./contract.js').View} View */

/**
 * @param {HTMLElement} panel
 * @param {Actions} actions
 * @returns {import('./state.js').Renderer}
 */
export function scorePart(panel, actions) {
  return (state, before) => {
    if (!viewChanged(state, before, 'score', 'units', 'grid')) return;
    const { view } = state, { score, units } = view, open = view.grid !== null && view.grid.pieces.length > 0;
    /** @type {(text: string) => Node} */
    const heat = text => make('p', { class: 'large' }, make('b', {}, text || '–'), ` ${units.heat}`);
    fill(panel,
      make('h2', { id: 'score-title' }, open ? 'Hot utility that can be reached' : 'Hot utility'),
      heat(open ? score.reach_hot : score.stands_hot || score.reach_hot), bar(score, view),
      make('p', { class: 'pale stands' }, `target ${score.target_hot}`,
        open && score.stands_hot && `; as it stands, all that is open is served by utilities: ${score.stands_hot}`),
      make('h3', {}, 'Above the target'), heat(score.above),
      make('h3', {}, open && score.left > 0 ? 'Exchangers (placed + to come)' : 'Exchangers'),
      make('p', { class: 'units' }, score.units),
      score.cost && make('p', { class: 'pale' }, `cost ${bracketed(score.cost)}`),
      score.floor && make('p', { class: 'pale' }, `no network costs less than ${bracketed(score.floor)}`),
      ...score.notes.map(note => make('p', { class: 'pale' }, note)),
      make('button', {
        type: 'button', class: 'wide-button', 'data-key': 'finish', disabled: !open,
        click: () => actions.do({ kind: 'finish' }),
      }, 'Serve the rest by utilities'),
      open && severalOfASide(view) && make('button', {
        type: 'button', class: 'wide-button', 'data-key': 'finish by parts',
        click: () => actions.do({ kind: 'finish', by: 'parts' }),
      }, '… by the cheapest at each temperature'));
  };
}

/**
 * A number with its unit in brackets, as that of costs is no word.
 * @param {string} text
 */
function bracketed(text) {
  const [, number, unit] = /^(\S+) (.+)$/.exec(text) ?? ['', text, ''];
  return unit ? `${number} (${unit.replace(' times ', ' × ')})` : number;
}

/**
 * The target as a mark, what can be reached and what stands as bars.
 * @param {ScoreView} score
 * @param {View} view
 */
function bar(score, view) {
  const [target, reach, stands] = score.bar.map(part => Math.max(0, Math.min(1, part)) * 200);
  return draw('svg', {
    class: 'bar', viewBox: '-1 0 202 20', role: 'img', preserveAspectRatio: 'none',
    'aria-label': `hot utility: target ${score.target_hot}, within reach ${score.reach_hot || 'unknown'}, as it stands `
      + `${score.stands_hot || 'unknown'} ${view.units.heat}`,
  },
  draw('rect', { class: 'all', x: 0, y: 5, width: 200, height: 10 }),
  draw('rect', { class: 'stands', x: 0, y: 5, width: stands, height: 10 }),
  draw('rect', { class: 'reach', x: 0, y: 5, width: reach, height: 10 }),
  draw('rect', { class: 'target', x: target - 1, y: 0, width: 2, height: 20 }));
}

/**
 * @param {HTMLElement} panel
 * @param {Actions} actions
 * @returns {import('./state.js').Renderer}
 */
export function stepsPart(panel, actions) {
  return (state, before) => {
    if (!viewChanged(state, before, 'steps')) return;
    fill(panel, make('h2', { id: 'steps-title' }, 'Steps'), make('ol', { class: 'steps' },
      ...state.view.steps.map((step, at) => make('li', {}, make('button', {
        type: 'button', 'data-key': `step ${at}`, 'aria-current': step.present ? 'step' : null,
        click: () => actions.do({ kind: 'step', at }),
      }, step.text)))));
    whenDrawn(() => showPresent(panel));
  };
}

/**
 * Whether one piece may take several utilities.
 * @param {View} view
 */
function severalOfASide(view) {
  const sides = view.utilities.map(utility => utility.side);
  return sides.some((side, at) => sides.indexOf(side) !== at);
}

/**
 * Scrolls the list, and nothing else, to the present step.
 * @param {HTMLElement} panel
 */
function showPresent(panel) {
  const list = panel.querySelector('.steps'), present = panel.querySelector('[aria-current]');
  if (!(list instanceof HTMLElement) || !(present instanceof HTMLElement)) return;
  const top = present.offsetTop - list.offsetTop, bottom = top + present.offsetHeight;
  if (top < list.scrollTop) list.scrollTop = top;
  else if (bottom > list.scrollTop + list.clientHeight) list.scrollTop = bottom - list.clientHeight;
}
