// The page: what the desk says is shown in parts, and what the user does is asked of it.

import { Actions } from './actions.js';
import { ChosenPart } from './chosen.js';
import { CurvesPart } from './curves.js';
import { hasTyped, make, part } from './dom.js';
import { GridPart } from './grid.js';
import { helpPart } from './help.js';
import { History } from './history.js';
import { keepingPart } from './keeping.js';
import { restPart, tradeoffPart } from './rest.js';
import { scorePart, stepsPart } from './score.js';
import { Store } from './state.js';
import { StreamsPart } from './streams.js';
import { tablePart, textsPart } from './tables.js';
import { Talk } from './talk.js';
import { lostPart, toastPart, topPart } from './top.js';
import { WaysPart } from './ways.js';

/**
 * When a new view is drawn, and when it is on the screen, for those who measure: the frame behind that in which it is
 * painted has begun then.
 * @type {import('./state.js').Renderer}
 */
const measured = (state, before) => {
  if (!before || state.view === before.view) return;
  performance.mark('drawn');
  requestAnimationFrame(() => requestAnimationFrame(() => performance.mark('painted')));
};

/**
 * @param {KeyboardEvent} event
 * @param {Actions} actions
 * @param {() => void} help
 */
function pressed(event, actions, help) {
  const { target } = event, key = event.key.toLowerCase();
  const typing = target instanceof HTMLElement && target.matches('input:not([type=range]), textarea, select');
  if (event.ctrlKey || event.metaKey) {
    // Where a text was typed since, the browser takes that back.
    if (event.altKey || key !== 'z' && key !== 'y' || hasTyped(target)) return;
    event.preventDefault();
    actions.do({ kind: key === 'y' || event.shiftKey ? 'redo' : 'undo' });
  } else if (typing || event.altKey) return;
  else if (key === '?') help();
  else if (key === 'g' && isAtDiagram(target)) focusFirst(part('ways'));
}

/**
 * Single letters do something in the diagram alone.
 * @param {EventTarget | null} target
 */
function isAtDiagram(target) {
  return target === document.body || target instanceof Node && part('grid').contains(target);
}

/** @param {HTMLElement} panel */
function focusFirst(panel) {
  const found = panel.querySelector('input, button');
  if (found instanceof HTMLElement) found.focus();
}

async function begin() {
  const talk = new Talk(new URL('.', location.href).href);
  const store = new Store(await talk.view());
  const history = new History(talk, store);
  const actions = new Actions(talk, store);
  const help = helpPart(part('help'));
  actions.keeper = keepingPart(part('keeping'), actions);
  const streams = new StreamsPart(part('streams'), actions);
  actions.utilityForm = side => streams.open('utility', { side });
  /** @type {ChosenPart} */
  const chosen = new ChosenPart(part('chosen'), actions, key => grid.focus(key));
  /** @type {GridPart} */
  const grid = new GridPart(part('grid'), actions, (_, to) => chosen.enter(to));
  for (const renderer of [
    history.render, grid.render, topPart(actions, help), toastPart(), lostPart(),
    streams.render,
    new CurvesPart(part('curves'), actions).render, chosen.render,
    new WaysPart(part('ways'), actions, () => grid.keys.enter()).render, scorePart(part('score'), actions),
    stepsPart(part('steps'), actions), tablePart(part('table'), actions), textsPart(part('texts'), actions),
    tradeoffPart(part('tradeoff'), actions), restPart(part('rest'), actions), measured,
  ]) store.add(renderer);
  document.addEventListener('keydown', event => pressed(event, actions, help));
  actions.findWays();
  history.goOn().then(view => view && actions.show(view));
  talk.changes(version => actions.refresh(version), lost => {
    if (lost) store.set({ lost });
    else if (store.state.lost) actions.refresh();
    return !store.state.closed;
  });
  document.body.classList.add('ready');
}

begin().catch(cause => {
  part('lost').hidden = false;
  part('lost').append(make('span', {}, `The page cannot be shown: ${cause instanceof Error ? cause.message : cause}`));
});
