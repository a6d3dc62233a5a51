// What can be done, and by which keys.

import { fill, make } from './dom.js';

/** @type {[string, string][]} */
const KEYS = [
  ['Tab', 'goes from part to part; the diagram is one of them'],
  ['← → ↑ ↓', 'in the diagram: from place to place'],
  ['Home, End', 'in the diagram: to the first open piece, to the last place'],
  ['Enter', 'on an open piece: its partners, the best first; on an exchanger: its duty; on a split: its shares'],
  ['m', 'on an exchanger: as large as it can be'],
  ['e', 'on an exchanger: to where its ends can be moved, one or both'],
  ['Delete', 'on an exchanger: takes it away; on a split: joins the branches'],
  ['u', 'on an open piece: served by the cheapest utility that reaches'],
  ['U', 'all that is open is served by utilities'],
  ['s', 'on an open piece: splits the stream'],
  ['g', 'goes to loops and paths'],
  ['Esc', 'goes back: to the diagram, to the least approach that is kept; ends a drag'],
  ['Ctrl+Z', 'takes back the last step; where a text was typed since, that text'],
  ['Ctrl+Y, Ctrl+Shift+Z', 'does again what was taken back'],
];

/**
 * @param {HTMLElement} place
 * @returns {() => void} shows it
 */
export function helpPart(place) {
  const dialog = /** @type {HTMLDialogElement} */ (place);
  fill(dialog, make('h2', { id: 'help-title' }, 'Making a network by hand'),
    make('p', {}, 'What is not served yet is an open piece: a dashed pill with its duty. Drag it to a piece of the '
      + 'other side, or to a utility: before it is dropped, the page says how large the exchanger becomes and what it '
      + 'costs. Begin at the pinch and go away from it. An end of an exchanger can be dragged to another open '
      + 'piece of its side, and the whole of it, by its bar, along its two streams.'),
    make('p', {}, 'The grey band holds what works across the pinch: such an exchanger is dashed, and behind its duty '
      + 'stands how much of it crosses: 136 (↯ 4). What is rejected has a ⚠.'),
    make('p', {}, 'Each step is judged by the program and saved in the two files at once. Undo takes back any.'),
    make('dl', {}, ...KEYS.flatMap(([key, words]) => [make('dt', {}, make('kbd', {}, key)), make('dd', {}, words)])),
    make('form', { method: 'dialog' }, make('button', {}, 'close')));
  return () => dialog.showModal();
}
