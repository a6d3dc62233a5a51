// The head of the page: the files, the verdict, back and forth; what was refused, and whether the desk still answers.

import { fill, make, part } from './dom.js';
import { changed } from './state.js';

/** @typedef {import('./actions.js').Actions} Actions */

/** @type {Record<string, string>} */
const SIGNS = { accepted: '✓', rejected: '✗', faulty: '⚠', unfinished: '…', 'nothing-placed': '○' };

/**
 * @param {Actions} actions
 * @param {() => unknown} help
 * @returns {import('./state.js').Renderer}
 */
export function topPart(actions, help) {
  return (state, before) => {
    if (!changed(state, before, 'view', 'busy')) return;
    const { view } = state, { files, verdict } = view;
    if (changed(state, before, 'view')) {
      document.title = `${files.case} · ${files.network} – pinchdesk`;
      const begun = files.offered.length > 0 ? ' (a table)' : '';
      fill(part('files'), make('bdi', {}, files.case), begun, ' · ', make('bdi', {}, files.network));
      tell(part('verdict'), verdict, verdict.kind === 'accepted' && view.score.above !== '0');
    }
    fill(part('history'),
      make('button', {
        type: 'button', 'data-key': 'undo', disabled: !view.can_undo, title: 'Ctrl+Z',
        click: () => actions.do({ kind: 'undo' }),
      }, '↶ Undo'),
      make('button', {
        type: 'button', 'data-key': 'redo', disabled: !view.can_redo, title: 'Ctrl+Shift+Z',
        click: () => actions.do({ kind: 'redo' }),
      }, '↷ Redo'),
      make('button', { type: 'button', 'data-key': 'help', 'aria-label': 'help', title: '?', click: help }, '?'),
      files.offered.length > 0 && make('button', {
        type: 'button', 'data-key': 'keep', click: () => actions.keeper(),
      }, 'Keep the case …'),
      make('span', { class: 'saved' }, files.saved));
  };
}

/**
 * Says the verdict, once: what is the same is not told again.
 * @param {HTMLElement} place
 * @param {import('./contract.js').Judgement} verdict
 * @param {boolean} over whether more is used than the target
 */
function tell(place, verdict, over) {
  const text = `${verdict.title}. ${verdict.text}`;
  if (place.dataset.text === text) return;
  place.dataset.text = text;
  place.className = `${verdict.kind}${over ? ' over' : ''}`;
  place.replaceChildren(
    make('span', { class: 'badge' }, make('span', { 'aria-hidden': 'true' }, SIGNS[verdict.kind] ?? '', ' '),
      verdict.title),
    make('span', { class: 'hidden' }, '. '), make('span', { class: 'words' }, verdict.text));
}

/**
 * What was refused lies over the page for a while, so that nothing moves below the hand.
 * @returns {import('./state.js').Renderer}
 */
export function toastPart() {
  const toast = part('toast');
  let timer = 0;
  return (state, before) => {
    if (!changed(state, before, 'refusal')) return;
    clearTimeout(timer);
    fill(toast, state.refusal && make('p', {}, `⚠ ${state.refusal.text}`));
    if (state.refusal) timer = setTimeout(() => fill(toast), 9000);
  };
}

/** @returns {import('./state.js').Renderer} */
export function lostPart() {
  const place = part('lost');
  return (state, before) => {
    if (!changed(state, before, 'lost', 'closed', 'elsewhere')) return;
    const gone = state.lost || state.closed;
    place.hidden = !gone;
    place.className = state.closed ? 'closed' : '';
    place.textContent = state.closed ? 'The desk is closed. All that was done is in the two files.'
      : state.elsewhere ? 'The desk goes on in the window that was opened last, with these steps.'
      : state.lost ? 'The desk does not answer. All that was done is in the two files: leave this tab open, call '
        + '“pinchdesk open” again, and go on in the page that it opens, which gets the steps from here.' : '';
    document.body.classList.toggle('is-lost', gone);
  };
}
