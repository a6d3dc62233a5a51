// What the user does: each gesture is asked of the desk, one after the other, and what it answers becomes the state.

import { Lost } from './talk.js';

/** @typedef {import('./contract.js').Gesture} Gesture */
/** @typedef {import('./contract.js').Offer} Offer */
/** @typedef {import('./contract.js').View} View */
/** @typedef {import('./state.js').Chosen} Chosen */
/** @typedef {import('./state.js').Store} Store */
/** @typedef {import('./talk.js').Talk} Talk */
/** @typedef {import('./talk.js').Done} Done */

const LATE = 'This was changed meanwhile, in another window or in the file. Look at it, and do it again.';
const UNKEPT = 'Nothing was changed: it is not said yet where the case is kept.';
const AGO = 250;

export class Actions {
  /**
   * @param {Talk} talk
   * @param {Store} store
   */
  constructor(talk, store) {
    this.talk = talk;
    this.store = store;
    /** @type {Promise<unknown>} */
    this.last = Promise.resolve();
    /** @type {string | null} */
    this.wanted = null;
    this.sliding = false;
    this.searching = false;
    this.waiting = 0;
    /** @type {string | null} the exchanger that was chosen when loops and paths were asked for */
    this.waysThrough = null;
    /** @type {Promise<Offer[]> | null} */
    this.asked = null;
    this.askedAt = '';
    /** @type {Promise<Offer[]>} */
    this.movesAsked = Promise.resolve([]);
    /** @type {() => Promise<boolean>} asks where the case of a table is kept */
    this.keeper = () => Promise.resolve(false);
    /** @type {(side: string) => void} opens the form of a new utility of a side */
    this.utilityForm = () => undefined;
  }

  /** The present state. */
  get state() {
    return this.store.state;
  }

  /**
   * Does a gesture after those that are under way. Gives whether it was done.
   * @param {Gesture} gesture
   * @returns {Promise<boolean>}
   */
  async do(gesture) {
    if (this.searching) return this.refused('A search is under way, and ends by itself: nothing was changed.');
    if (!await this.isKept()) return this.refused(UNKEPT);
    return this.after(() => this.talk.gesture(this.state.view.version, gesture));
  }

  /** @param {string} text */
  refused(text) {
    this.store.set({ refusal: { text, places: [] } });
    return false;
  }

  /** Whether there are two files that are written; of a table it is asked where. */
  async isKept() {
    return !this.state.view.files.offered.length || await this.keeper();
  }

  /**
   * Keeps the case of a table by a name. Gives why it cannot be.
   * @param {string} name
   */
  async keep(name) {
    const done = await this.after(() => this.talk.gesture(this.state.view.version, { kind: 'keep', name }));
    return done ? '' : this.state.refusal?.text ?? 'The desk does not answer.';
  }

  /**
   * Searches a network from here; nothing else is done meanwhile.
   * @param {string} seconds
   * @param {string} above
   */
  async search(seconds, above) {
    if (!await this.isKept()) return this.refused(UNKEPT);
    this.searching = true;
    try {
      return await this.after(() => this.talk.search(this.state.view.version, seconds, above));
    } finally {
      this.searching = false;
    }
  }

  /**
   * Asks after all that is under way.
   * @param {() => Promise<Done>} question
   * @returns {Promise<boolean>}
   */
  after(question) {
    const done = this.last.then(() => this.send(question));
    this.last = done.catch(() => undefined);
    return done;
  }

  /**
   * @param {() => Promise<Done>} question
   * @returns {Promise<boolean>}
   */
  async send(question) {
    performance.mark('asked');
    this.store.set({ busy: true });
    try {
      const done = await question();
      performance.mark('answered');
      const refusal = done.late ? { text: LATE, places: [] } : done.refused ?? null;
      this.show(done.view, { busy: false, refusal, slider: null, instead: null });
      return !refusal;
    } catch (cause) {
      this.failed(cause);
      return false;
    }
  }

  /**
   * Shows a new view; what was chosen stays chosen where it still is.
   * @param {View} view
   * @param {Partial<import('./state.js').State>} [more]
   */
  show(view, more = {}) {
    const { chosen, view: before } = this.state;
    const same = view.version === before.version;
    const still = chosen && isThere(view, chosen) ? chosen : null;
    this.store.set({
      view, chosen: still, offers: same ? this.state.offers : null, moves: same ? this.state.moves : null, way: null,
      partners: [],
      waysAsked: same ? this.state.waysAsked : true, ...more,
    });
    if (same) return;
    if (still && still.kind === 'piece') this.offer(still.name);
    this.findWaysSoon();
  }

  /** @param {unknown} cause */
  failed(cause) {
    if (!(cause instanceof Lost)) throw cause;
    this.store.set({ busy: false, lost: true });
  }

  /**
   * The state anew, where it may have changed elsewhere.
   * @param {number} [version] the version that the desk has; what is shown may be it already
   */
  refresh(version) {
    const done = this.last.then(async () => {
      if (version === this.state.view.version) return;
      try {
        this.show(await this.talk.view(), { lost: false });
      } catch (cause) {
        this.failed(cause);
      }
    });
    this.last = done;
    return done;
  }

  /** @param {Chosen | null} chosen */
  choose(chosen) {
    const { chosen: before } = this.state;
    if (chosen && before && chosen.kind === before.kind && chosen.name === before.name) return;
    this.store.set({ chosen, moves: null, partners: [], refusal: null });
    if (chosen && chosen.kind === 'piece') this.offer(chosen.name);
    if (chosen && chosen.kind === 'exchanger' && this.state.ways.more) this.findWays();
  }

  /**
   * What a piece may be matched with, asked once for each version.
   * @param {string} piece
   * @param {string} [limit] the heat of which an exchanger may have no more; else what was said for this piece
   * @returns {Promise<Offer[]>}
   */
  offer(piece, limit) {
    const { offers, view } = this.state, most = limit ?? (offers?.piece === piece ? offers.most : '');
    const at = `${view.version} ${piece} ${most}`;
    if (offers && offers.piece === piece && this.asked && this.askedAt === at) return this.asked;
    this.askedAt = at;
    this.store.set({ offers: { piece, most, list: null } });
    this.asked = this.last.then(() => this.findOffers(piece, most));
    return this.asked;
  }

  /**
   * @param {string} piece
   * @param {string} most
   * @returns {Promise<Offer[]>}
   */
  async findOffers(piece, most) {
    const version = this.state.view.version;
    try {
      const answer = await this.talk.offers(version, piece, most);
      const list = answer && 'offers' in answer ? answer.offers : [];
      if (answer && 'refused' in answer) this.store.set({ refusal: answer.refused });
      const { offers, view } = this.state, wanted = offers && offers.piece === piece && offers.most === most;
      if (wanted && view.version === version) this.store.set({ offers: { piece, most, list } });
      return list;
    } catch (cause) {
      this.failed(cause);
      return [];
    }
  }

  /**
   * Where the ends of an exchanger can be moved to, asked once for each version.
   * @param {string} exchanger
   * @returns {Promise<Offer[]>}
   */
  findMoves(exchanger) {
    const { moves } = this.state;
    if (moves && moves.exchanger === exchanger) return this.movesAsked;
    this.store.set({ moves: { exchanger, list: null } });
    this.movesAsked = this.last.then(() => this.askMoves(exchanger));
    return this.movesAsked;
  }

  /**
   * @param {string} exchanger
   * @returns {Promise<Offer[]>}
   */
  async askMoves(exchanger) {
    const version = this.state.view.version;
    try {
      const list = await this.talk.moves(version, exchanger) ?? [];
      const { moves: now, view } = this.state;
      if (now?.exchanger === exchanger && view.version === version) this.store.set({ moves: { exchanger, list } });
      return list;
    } catch (cause) {
      this.failed(cause);
      return [];
    }
  }

  /**
   * Places an exchanger, and chooses it; other places for it stay at hand.
   * @param {Offer} offer
   * @param {Offer[]} all
   */
  async place(offer, all) {
    const names = new Set(this.state.view.exchangers.map(row => row.name));
    if (!await this.do(offer.gesture)) return;
    const made = this.state.view.exchangers.find(row => !names.has(row.name));
    if (!made) return;
    this.store.set({
      chosen: { kind: 'exchanger', name: made.name },
      instead: { exchanger: made.name, list: all.filter(other => other !== offer) },
    });
  }

  /**
   * Another place in place of the one just taken.
   * @param {Offer} offer
   */
  async placeInstead(offer) {
    const all = this.state.instead ? this.state.instead.list : [];
    if (await this.do({ kind: 'undo' })) await this.place(offer, all);
  }

  /** A moment after the last change, so that a quick hand does not wait for what it does not look at. */
  findWaysSoon() {
    clearTimeout(this.waiting);
    this.waiting = setTimeout(() => this.findWays(), AGO);
  }

  async findWays() {
    const { chosen, view: { version } } = this.state, through = chosen?.kind === 'exchanger' ? chosen.name : null;
    this.waysThrough = through;
    try {
      const ways = await this.talk.ways(version, through);
      const wanted = this.state.view.version === version && this.waysThrough === through;
      if (ways && wanted) this.store.set({ ways, waysAsked: false, way: null });
    } catch (cause) {
      this.failed(cause);
    }
  }

  /**
   * Targets and curves at another least approach: the newest that is wanted, one question at a time.
   * @param {string} wanted
   */
  async slide(wanted) {
    this.wanted = wanted;
    if (this.sliding) return;
    this.sliding = true;
    try {
      while (this.wanted !== null) {
        /** @type {string} */
        const difference = this.wanted;
        const answer = await this.talk.slider(this.state.view.version, difference);
        if (this.wanted === difference) this.wanted = null;
        if (answer && 'refused' in answer) this.store.set({ refusal: answer.refused });
        else if (answer) this.store.set({ slider: answer, refusal: null });
      }
    } catch (cause) {
      this.failed(cause);
    } finally {
      this.sliding = false;
    }
  }

  /**
   * Exchangers against cost from here; nothing is changed. Null where it is refused.
   * @param {string} seconds
   * @returns {Promise<import('./contract.js').TradeoffTable | null>}
   */
  async tradeoff(seconds) {
    try {
      await this.last;
      const answer = await this.talk.tradeoff(this.state.view.version, seconds);
      if (answer && !('refused' in answer)) return answer;
      this.refused(answer ? answer.refused.text : LATE);
    } catch (cause) {
      this.failed(cause);
    }
    return null;
  }

  /** Ends the desk; all is saved. */
  async close() {
    this.store.set({ closed: true });
    try {
      await this.last;
      await this.talk.close();
    } catch (cause) {
      this.failed(cause);
    }
  }

  /** Back to the least approach that is kept. */
  letGo() {
    this.wanted = null;
    this.store.set({ slider: null, refusal: null });
  }
}

/**
 * @param {View} view
 * @param {Chosen} chosen
 */
function isThere(view, chosen) {
  const { grid } = view;
  if (!grid) return false;
  if (chosen.kind === 'exchanger') return grid.exchangers.some(exchanger => exchanger.name === chosen.name);
  if (chosen.kind === 'piece') return grid.pieces.some(piece => piece.id === chosen.name);
  return grid.joints.some(joint => joint.id === chosen.name);
}
