// What is asked of the desk. Nothing goes anywhere else.

/** @typedef {import('./contract.js').Gesture} Gesture */
/** @typedef {import('./contract.js').Offer} Offer */
/** @typedef {import('./contract.js').Refusal} Refusal */
/** @typedef {import('./contract.js').Slider} Slider */
/** @typedef {import('./contract.js').StepKept} StepKept */
/** @typedef {import('./contract.js').TradeoffTable} TradeoffTable */
/** @typedef {import('./contract.js').View} View */
/** @typedef {import('./contract.js').WaysFound} WaysFound */

/** How long it waits, in ms, before it calls again. */
const AGAIN = 1500;

/** The desk does not answer any more. */
export class Lost extends Error {}

/**
 * @typedef {object} Done what came of a gesture: the state, and why nothing was done; `late` where it had changed
 * @property {View} view
 * @property {Refusal} [refused]
 * @property {boolean} [late]
 */

export class Talk {
  /** @param {string} base the address of the page, which ends with its token and a slash */
  constructor(base) {
    this.base = base;
  }

  /**
   * @param {string} name
   * @param {object} [content]
   * @returns {Promise<{status: number, content: any}>}
   */
  async ask(name, content) {
    /** @type {Response} */
    let answer;
    try {
      answer = await fetch(this.base + name, content === undefined ? {} : {
        method: 'POST', headers: { 'Content-Type': 'application/json' }, body: JSON.stringify(content),
      });
    } catch (cause) {
      throw new Lost(String(cause));
    }
    if (!answer.ok && answer.status !== 409) throw new Lost(`${name}: ${answer.status}`);
    return { status: answer.status, content: await answer.json() };
  }

  /** @returns {Promise<View>} */
  async view() {
    return (await this.ask('view')).content;
  }

  /**
   * @param {number} version
   * @param {Gesture} gesture
   * @returns {Promise<Done>}
   */
  async gesture(version, gesture) {
    const { status, content } = await this.ask('gesture', { version, gesture });
    return { ...content, late: status === 409 };
  }

  /**
   * A network of few exchangers from the present one, when the time is over.
   * @param {number} version
   * @param {string} seconds
   * @param {string} above so many percent above the least cost at most
   * @returns {Promise<Done>}
   */
  async search(version, seconds, above) {
    const { status, content } = await this.ask('search', {
      version, ...(seconds && { seconds }), ...(above && { above }),
    });
    return { ...content, late: status === 409 };
  }

  /**
   * What an open piece may be matched with; null where the state has changed meanwhile.
   * @param {number} version
   * @param {string} piece
   * @param {string} most the heat of which an exchanger may have no more, empty where it may
   * @returns {Promise<{offers: Offer[]} | {refused: Refusal} | null>}
   */
  async offers(version, piece, most) {
    const { status, content } = await this.ask('offers', { version, piece, ...(most && { most }) });
    return status === 409 ? null : content;
  }

  /**
   * Where the ends of an exchanger can be moved to; null where the state has changed meanwhile.
   * @param {number} version
   * @param {string} exchanger
   * @returns {Promise<Offer[] | null>}
   */
  async moves(version, exchanger) {
    const { status, content } = await this.ask('moves', { version, exchanger });
    return status === 409 ? null : content.offers ?? [];
  }

  /**
   * Exchangers against cost, when the time is over; null where the state has changed meanwhile.
   * @param {number} version
   * @param {string} seconds
   * @returns {Promise<TradeoffTable | {refused: Refusal} | null>}
   */
  async tradeoff(version, seconds) {
    const { status, content } = await this.ask('tradeoff', { version, ...(seconds && { seconds }) });
    return status === 409 ? null : content;
  }

  /**
   * @param {number} version
   * @param {string | null} exchanger through which they go, where there are too many
   * @returns {Promise<WaysFound | null>}
   */
  async ways(version, exchanger) {
    const { status, content } = await this.ask('ways', { version, ...(exchanger && { exchanger }) });
    return status === 409 ? null : content;
  }

  /**
   * @param {number} version
   * @param {string} difference
   * @returns {Promise<Slider | {refused: Refusal} | null>}
   */
  async slider(version, difference) {
    const { status, content } = await this.ask('slider', { version, difference });
    return status === 409 ? null : content;
  }

  /**
   * All steps with their texts.
   * @returns {Promise<StepKept[]>}
   */
  async history() {
    return (await this.ask('history')).content;
  }

  /**
   * Gives a desk that was just opened the steps of one that ended.
   * @param {number} version
   * @param {import('./history.js').Kept} kept
   * @returns {Promise<Done>}
   */
  async goOn(version, kept) {
    const { status, content } = await this.ask('history', { version, ...kept });
    return { ...content, late: status === 409 };
  }

  /** Ends the desk. */
  async close() {
    await this.ask('close', {});
  }

  /**
   * Calls with each version that the desk has, also where another window made it. It asks again where the line breaks.
   * @param {(version: number) => void} told
   * @param {(lost: boolean) => boolean} lost says whether to call again
   */
  changes(told, lost) {
    const address = new URL(this.base + 'changes');
    address.protocol = 'ws:';
    const line = new WebSocket(address);
    line.addEventListener('open', () => lost(false));
    line.addEventListener('message', event => told(Number(JSON.parse(event.data))));
    line.addEventListener('close', () => {
      if (lost(true)) setTimeout(() => this.changes(told, lost), AGAIN);
    });
  }
}
