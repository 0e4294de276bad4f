// Smoothing as one writes it first in JavaScript: Float64Array, a running sum, every place folded.
import { fold } from './fold.mjs';

function pass({ radius, inner, edge }, samples) {
  const n = samples.length;
  const results = new Float64Array(n);
  let window = 0;
  for (let i = -radius; i <= radius; i += 1) window += samples[fold(i, n)];
  for (let i = 0; i < n; i += 1) {
    const low = samples[fold(i - radius - 1, n)];
    const high = samples[fold(i + radius + 1, n)];
    results[i] = inner * window + edge * (low + high);
    window += high - samples[fold(i - radius, n)];
  }
  return results;
}

export function smoothSeries(plan, bound, samples) {
  if (!samples.every((sample) => Number.isInteger(sample) && Math.abs(sample) <= bound)) return null;
  let results = samples;
  for (let n = 0; n < plan.passes; n += 1) results = pass(plan, results);
  return results;
}
