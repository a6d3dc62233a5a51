// Composite and grand composite curves, and the slider of the least approach, which changes nothing until Enter.

import { draw, fill, letterScale, make } from './dom.js';
import { linear, tickText, ticks } from './scale.js';
import { changed, viewChanged } from './state.js';

/** @typedef {import('./actions.js').Actions} Actions */
/** @typedef {import('./contract.js').CurvePicture} CurvePicture */
/** @typedef {import('./contract.js').Difference} Difference */
/** @typedef {import('./state.js').State} State */
/** @typedef {[number, number]} Point */

const WIDE = 350, HIGH = 236, MARGIN = { left: 40, right: 10, top: 20, bottom: 30 };

export class CurvesPart {
  /**
   * @param {HTMLElement} panel
   * @param {Actions} actions
   */
  constructor(panel, actions) {
    this.panel = panel;
    this.actions = actions;
    this.grand = false;
    this.left = false;
    /** @type {HTMLInputElement} */
    this.field = make('input', {
      size: 6, class: 'number', inputmode: 'decimal', 'aria-label': 'least approach ΔTmin', 'data-key': 'difference',
      input: () => this.moved(this.field.value), keydown: (/** @type {KeyboardEvent} */ event) => this.pressed(event),
    });
    /** @type {HTMLInputElement} */
    this.slider = make('input', {
      type: 'range', 'aria-label': 'least approach ΔTmin', 'data-key': 'slider',
      input: () => this.slid(), keydown: (/** @type {KeyboardEvent} */ event) => this.pressed(event),
    });
    this.ends = make('div', { class: 'heading pale', 'aria-hidden': 'true' });
    this.picture = make('div', { class: 'picture' });
    this.choices = make('div', { class: 'choices' });
    this.unit = make('span');
    this.told = make('output', { class: 'told' });
    this.keep = make('div', { class: 'tools', hidden: true },
      make('button', { type: 'button', click: () => this.kept() }, 'keep (Enter)'),
      make('button', { type: 'button', click: () => this.actions.letGo() }, 'back (Esc)'));
    this.own = make('p', { class: 'pale' });
    fill(panel, make('div', { class: 'heading' }, make('h2', { id: 'curves-title' }, 'Curves'), this.choices),
      this.picture, this.slider, this.ends,
      make('div', { class: 'approach' }, make('label', {}, 'ΔTmin ', this.field), this.unit, this.told),
      this.keep, this.own);
  }

  /** @type {import('./state.js').Renderer} */
  render = (state, before) => {
    if (changed(state, before, 'slider') || viewChanged(state, before, 'curves', 'curves_left')) {
      this.choose(state);
      this.show(state);
    }
    if (changed(state, before, 'slider') || viewChanged(state, before, 'difference', 'units', 'score')) {
      this.approach(state);
    }
  };

  /** @param {State} state */
  choose(state) {
    /** @type {(text: string, pressed: boolean, press: () => void) => HTMLButtonElement} */
    const button = (text, pressed, press) => make('button', {
      type: 'button', 'aria-pressed': String(pressed), 'data-key': text, click: () => {
        press();
        this.choose(this.actions.state);
        this.show(this.actions.state);
      },
    }, text);
    fill(this.choices,
      make('span', { class: 'choice', role: 'group', 'aria-label': 'which curves' },
        button('composite', !this.grand, () => { this.grand = false; }),
        button('grand', this.grand, () => { this.grand = true; })),
      state.view.curves_left && make('span', { class: 'choice', role: 'group', 'aria-label': 'of what' },
        button('whole', !this.left, () => { this.left = false; }),
        button('what is left', this.left, () => { this.left = true; })));
  }

  /** @param {State} state */
  show(state) {
    const { view, slider } = state;
    const curves = this.left && view.curves_left ? view.curves_left : view.curves;
    if (!curves) {
      fill(this.picture, make('p', { class: 'pale' }, 'There are no curves.'));
      return;
    }
    fill(this.picture, curvesPicture(slider ? slider.curves : curves, slider ? curves : null, this.grand));
  }

  /** @param {State} state */
  approach(state) {
    const { view, slider } = state, { difference } = view;
    this.slider.min = String(difference.least);
    this.slider.max = String(difference.most);
    this.slider.step = String(difference.step);
    fill(this.ends, make('span', {}, String(difference.least)),
      make('span', {}, `${difference.most} ${view.units.difference}`));
    if (!slider) {
      this.slider.value = String(difference.value);
      this.field.value = this.field.defaultValue = difference.text;
    }
    this.unit.textContent = view.units.difference;
    const { target_hot: hot, target_cold: cold } = slider ?? view.score;
    const more = slider ? [slider.area, slider.cost, slider.network] : [];
    this.told.textContent = [`hot ${hot}, cold ${cold} ${view.units.heat}`, ...more].filter(Boolean).join('; ');
    this.keep.hidden = !slider;
    this.own.textContent = difference.own;
    this.slider.setAttribute('aria-valuetext',
      `${this.field.value} ${view.units.difference}: ${this.told.textContent}`);
  }

  slid() {
    const { step } = this.actions.state.view.difference;
    const places = Math.max(0, Math.min(6, Math.ceil(-Math.log10(step) - 1e-9)));
    this.field.value = String(Number(Number(this.slider.value).toFixed(places)));
    this.moved(this.field.value);
  }

  /** @param {string} text */
  moved(text) {
    if (text.trim()) this.actions.slide(text.trim());
    if (Number.isFinite(Number(text))) this.slider.value = text;
  }

  /** @param {KeyboardEvent} event */
  pressed(event) {
    if (event.key === 'Enter') this.kept();
    else if (event.key === 'Escape') {
      this.actions.letGo();
      this.approach(this.actions.state);
    }
  }

  async kept() {
    this.actions.wanted = null;
    await this.actions.do({ kind: 'difference', difference: this.field.value.trim() });
  }
}

/**
 * @param {CurvePicture} curves
 * @param {CurvePicture | null} before curves that lie pale below them
 * @param {boolean} grand
 */
function curvesPicture(curves, before, grand) {
  const scale = letterScale(), all = before ? [curves, before] : [curves];
  const points = all.flatMap(some => grand ? some.grand : [...some.hot, ...some.cold]);
  const heats = [0, ...points.map(point => point[0]), ...all.flatMap(some => grand ? [] : [some.hot_to, some.cold_to])];
  const warm = points.map(point => point[1]);
  const x = linear([Math.min(...heats), Math.max(...heats)], [MARGIN.left, WIDE - MARGIN.right]);
  const y = linear([Math.min(...warm), Math.max(...warm)], [HIGH - MARGIN.bottom, MARGIN.top]);
  const label = `${grand ? 'Grand composite curve' : 'Composite curves'}: utilities ${curves.hot_utility}, `
    + `${curves.cold_utility}${curves.pinches.map(pinch => `, ${pinch.text}`).join('')}`;
  return draw('svg', {
    class: 'curves', viewBox: `0 0 ${WIDE} ${HIGH}`, width: WIDE * scale, height: HIGH * scale, role: 'img',
    'aria-label': label,
  },
  axes(curves, grand, x, y, [Math.min(...heats), Math.max(...heats)], [Math.min(...warm), Math.max(...warm)]),
  before && draw('g', { class: 'before' }, ...lines(before, grand, x, y)),
  ...lines(curves, grand, x, y), ...(grand ? [] : marks(curves, x, y)));
}

/** @typedef {(value: number) => number} Scale */

/**
 * @param {CurvePicture} curves
 * @param {boolean} grand
 * @param {Scale} x
 * @param {Scale} y
 * @param {Point} heats
 * @param {Point} warm
 */
function axes(curves, grand, x, y, heats, warm) {
  const upright = ticks(warm[0], warm[1], 5), flat = ticks(heats[0], heats[1], 4);
  return draw('g', { class: 'axes' },
    ...upright.flatMap(tick => [
      draw('line', { x1: MARGIN.left, x2: WIDE - MARGIN.right, y1: y(tick), y2: y(tick) }),
      draw('text', { x: MARGIN.left - 5, y: y(tick) + 3.5, 'text-anchor': 'end' }, tickText(tick))]),
    ...flat.flatMap(tick => [
      draw('line', { x1: x(tick), x2: x(tick), y1: MARGIN.top, y2: HIGH - MARGIN.bottom }),
      draw('text', { x: x(tick), y: HIGH - MARGIN.bottom + 13, 'text-anchor': 'middle' }, tickText(tick))]),
    draw('text', { x: 2, y: 11 }, grand ? curves.shifted_axis : curves.temperature_axis),
    draw('text', { x: WIDE - MARGIN.right, y: HIGH - 3, 'text-anchor': 'end' }, curves.heat_axis));
}

/**
 * @param {CurvePicture} curves
 * @param {boolean} grand
 * @param {Scale} x
 * @param {Scale} y
 */
function lines(curves, grand, x, y) {
  /** @param {readonly Point[]} points */
  const path = points => points.map(([heat, warm], at) =>
    `${at ? 'L' : 'M'}${x(heat).toFixed(1)} ${y(warm).toFixed(1)}`).join('');
  if (grand) return [draw('path', { class: 'curve grand', d: path(curves.grand) })];
  return [draw('path', { class: 'curve hot', d: path(curves.hot) }),
    draw('path', { class: 'curve cold', d: path(curves.cold) })];
}

/**
 * The utilities at both ends of the composite curves, and the pinches between them.
 * @param {CurvePicture} curves
 * @param {Scale} x
 * @param {Scale} y
 */
function marks(curves, x, y) {
  const hottest = Math.max(...[...curves.hot, ...curves.cold].map(point => point[1]));
  const coldest = Math.min(...[...curves.hot, ...curves.cold].map(point => point[1]));
  return [
    ...curves.pinches.map(pinch => draw('line', {
      class: 'near', x1: x(pinch.heat), x2: x(pinch.heat), y1: y(pinch.hot), y2: y(pinch.cold),
    })),
    ...span(x(curves.hot_from), x(curves.hot_to), y(hottest), curves.hot_utility, -6),
    ...span(x(curves.cold_from), x(curves.cold_to), y(coldest), curves.cold_utility, -6),
  ];
}

/**
 * @param {number} from
 * @param {number} to
 * @param {number} y
 * @param {string} text
 * @param {number} above
 */
function span(from, to, y, text, above) {
  if (!(to > from)) return [];
  const right = (from + to) / 2 > WIDE / 2;
  return [
    draw('path', { class: 'span', d: `M${from} ${y - 4}V${y + 4}M${from} ${y}H${to}M${to} ${y - 4}V${y + 4}` }),
    draw('text', {
      class: 'spanned', x: right ? to : to + 6, y: right ? y + above : y + 4, 'text-anchor': right ? 'end' : 'start',
    }, text),
  ];
}
