// What every thread does with the module: the same of the same seed, in whichever thread.
import { anySamples, chance } from '../../../reference/inputs.mjs';
import { StoredSeries, smoothSeries } from '../dungdapple.mjs';

const PLAN = { radius: 30, inner: 3, edge: 1, passes: 3 };
const BOUND = 1_000;

export function edits({ seed, shared, smoothed }) {
  const below = chance(seed);
  const samples = anySamples(below, 2_000, BOUND);
  const series = new StoredSeries(PLAN, BOUND, samples);
  for (let n = 0; n < 400; n += 1) {
    const [at, value] = [below(samples.length), below(2 * BOUND + 1) - BOUND];
    if (series.edit(at, value).number !== 0) throw new Error('an edit was refused');
    samples[at] = value;
    if (smoothSeries(PLAN, BOUND, shared, smoothed).number !== 0) throw new Error('smoothing was refused');
  }
  const fresh = new Float64Array(samples.length);
  smoothSeries(PLAN, BOUND, samples, fresh);
  return { samples: series.samples, results: series.results, fresh };
}
