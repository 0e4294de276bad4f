// An edit and a point by the taps of all passes together, which are computed once and kept. Results are doubles.
import { fold } from './fold.mjs';
import { smoothSeries } from './best.mjs';

// The weights from the centre outward: all passes of a series that is 1 at its middle alone.
export function tapsOf(plan, reach) {
  const one = new Float64Array(2 * reach + 1);
  const spread = new Float64Array(2 * reach + 1);
  one[reach] = 1;
  smoothSeries(plan, 1, one, spread);
  return spread.slice(reach);
}

function gainAround(taps, place, gain, results) {
  const reach = taps.length - 1;
  const to = Math.min(results.length, place + reach + 1);
  for (let i = Math.max(0, place - reach); i < to; i += 1) results[i] += gain * taps[Math.abs(i - place)];
}

// The sample stands at every place of the extension that folds to it.
export function edit(taps, position, value, samples, results) {
  const n = samples.length;
  const gain = value - samples[position];
  const turns = Math.trunc((taps.length - 1 + n) / (2 * n)) + 1;
  samples[position] = value;
  for (let turn = -turns; turn <= turns; turn += 1) {
    gainAround(taps, position + 2 * n * turn, gain, results);
    gainAround(taps, -1 - position + 2 * n * turn, gain, results);
  }
}

export function point(taps, divisor, position, samples) {
  const n = samples.length;
  const reach = taps.length - 1;
  let sum = taps[0] * samples[position];
  if (position >= reach && position + reach < n) {
    for (let m = 1; m <= reach; m += 1) sum += taps[m] * (samples[position - m] + samples[position + m]);
  } else {
    for (let m = 1; m <= reach; m += 1) {
      sum += taps[m] * (samples[fold(position - m, n)] + samples[fold(position + m, n)]);
    }
  }
  return sum / divisor;
}
