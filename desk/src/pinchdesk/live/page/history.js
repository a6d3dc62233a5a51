// The steps with their texts, which the page keeps: a desk that is killed has lost them, and one that is opened anew
// for the same files gets them from here. A page of the same tab finds them in its `sessionStorage`, where they are
// from one page to the next alone; a page in another tab asks for them, and is answered where it knows what both files
// hold.

/** @typedef {import('./contract.js').StepKept} StepKept */
/** @typedef {import('./contract.js').Texts} Texts */
/** @typedef {import('./contract.js').View} View */
/** @typedef {import('./state.js').Store} Store */
/** @typedef {import('./talk.js').Talk} Talk */
/** @typedef {{steps: {text: string, case: string, network: string}[], at: number}} Kept */

const NAME = 'pinchdesk steps';
/** How long it waits for an answer, and after a change before it asks for what it has not seen, in ms. */
const PATIENCE = 400, AGO = 1000;

export class History {
  /**
   * @param {Talk} talk
   * @param {Store} store
   */
  constructor(talk, store) {
    this.talk = talk;
    this.store = store;
    /** @type {Map<number, Texts>} */
    this.texts = new Map();
    this.waiting = 0;
    this.line = new BroadcastChannel(NAME);
    this.line.addEventListener('message', event => this.heard(event.data));
    addEventListener('pagehide', () => this.leave());
  }

  /** @type {import('./state.js').Renderer} */
  render = (state, before) => {
    const { view } = state;
    if (before && view.steps === before.view.steps && view.texts === before.view.texts) return;
    const known = new Set(view.steps.map(step => step.id));
    for (const id of this.texts.keys()) if (!known.has(id)) this.texts.delete(id);
    const present = view.steps.find(step => step.present);
    if (present) this.texts.set(present.id, view.texts);
    clearTimeout(this.waiting);
    if (known.size > this.texts.size) this.waiting = setTimeout(() => this.fetch(), AGO);
  };

  /** What another window made: its texts were not seen here. */
  async fetch() {
    try {
      for (const step of await this.talk.history()) {
        this.texts.set(step.id, { case: step.case, network: step.network });
      }
    } catch {
      // The desk does not answer: what is known stays known.
    }
  }

  /**
   * All steps whose texts are known, up to those behind the present one.
   * @returns {Kept}
   */
  kept() {
    const { steps } = this.store.state.view;
    const made = steps.flatMap(step => {
      const texts = this.texts.get(step.id);
      return texts ? [{ text: step.text, ...texts, present: step.present }] : [];
    });
    return {
      steps: made.map(({ text, case: content, network }) => ({ text, case: content, network })),
      at: made.findIndex(step => step.present),
    };
  }

  /** Leaves the steps to the next page of this tab: all of them, or the last ones where there is little room. */
  leave() {
    const kept = this.kept();
    while (kept.steps.length > 1) {
      try {
        sessionStorage.setItem(NAME, JSON.stringify(kept));
        return;
      } catch {
        const gone = Math.ceil(kept.steps.length / 2);
        kept.steps.splice(0, Math.min(gone, kept.at));
        kept.at -= Math.min(gone, kept.at);
        if (!kept.at) return;
      }
    }
  }

  /**
   * Gives a desk that was just opened the steps that are kept here, or in another tab.
   * @returns {Promise<View | null>} what the desk shows then
   */
  async goOn() {
    const left = this.left(), { view } = this.store.state;
    if (view.steps.length > 1) return null;
    const kept = left && isAt(left, view.texts) ? left : await this.asked(view.texts);
    if (!kept || kept.steps.length < 2) return null;
    const done = await this.talk.goOn(view.version, kept);
    if (done.refused || done.late) return null;
    this.line.postMessage({ taken: await digestOf(view.texts) });
    done.view.steps.forEach((step, at) => this.texts.set(step.id, kept.steps[at]));
    return done.view;
  }

  /**
   * What an earlier page of this tab has left.
   * @returns {Kept | null}
   */
  left() {
    try {
      const found = sessionStorage.getItem(NAME);
      sessionStorage.removeItem(NAME);
      return found ? JSON.parse(found) : null;
    } catch {
      return null;
    }
  }

  /**
   * Asks the pages of other tabs.
   * @param {Texts} texts
   * @returns {Promise<Kept | null>}
   */
  async asked(texts) {
    const wanted = await digestOf(texts);
    return new Promise(found => {
      const line = new BroadcastChannel(NAME);
      const ended = (/** @type {Kept | null} */ kept) => {
        line.close();
        found(kept);
      };
      line.addEventListener('message', ({ data }) => {
        if (data?.found === wanted && isAt(data.kept, texts)) ended(data.kept);
      });
      line.postMessage({ wanted });
      setTimeout(() => ended(null), PATIENCE);
    });
  }

  /**
   * Another page asks, or has what it asked for. Only a page whose desk is gone answers, and only who knows both texts.
   * @param {any} data
   */
  async heard(data) {
    const { lost, view } = this.store.state;
    if (!lost || !data?.wanted && !data?.taken) return;
    const own = await digestOf(view.texts);
    if (data.wanted === own) this.line.postMessage({ found: own, kept: this.kept() });
    else if (data.taken === own) this.store.set({ elsewhere: true });
  }
}

/**
 * Whether steps are those of a desk whose files hold these texts.
 * @param {Kept} kept
 * @param {Texts} texts
 */
function isAt(kept, texts) {
  const present = kept.steps[kept.at];
  return present !== undefined && present.case === texts.case && present.network === texts.network;
}

/** @param {Texts} texts */
async function digestOf(texts) {
  const content = new TextEncoder().encode(JSON.stringify([texts.case, texts.network]));
  return [...new Uint8Array(await crypto.subtle.digest('SHA-256', content))].join(' ');
}
