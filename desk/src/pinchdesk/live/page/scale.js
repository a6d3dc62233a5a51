// Scales of the curves: round numbers at the axes.

/**
 * Round numbers from the least to the most, at most as many as wanted.
 * @param {number} least
 * @param {number} most
 * @param {number} wanted
 * @returns {number[]}
 */
export function ticks(least, most, wanted) {
  const range = most - least;
  if (!(range > 0) || !Number.isFinite(range)) return [least];
  const raw = range / wanted, power = 10 ** Math.floor(Math.log10(raw));
  const step = [1, 2, 5, 10].map(part => part * power).find(part => part >= raw * 0.999) ?? 10 * power;
  const found = [];
  for (let tick = Math.ceil(least / step - 1e-9); tick * step <= most + step * 1e-9; tick += 1) found.push(tick * step);
  return found;
}

/**
 * A number of an axis, without the noise of floats.
 * @param {number} tick
 */
export function tickText(tick) {
  return String(Number(tick.toPrecision(9))).replace('-', '−');
}

/**
 * From values to places.
 * @param {[number, number]} values
 * @param {[number, number]} places
 * @returns {(value: number) => number}
 */
export function linear(values, places) {
  const range = values[1] - values[0] || 1;
  return value => places[0] + (value - values[0]) / range * (places[1] - places[0]);
}
