// Smoothing a series and a picture: the package with its slices copied and with a stored series, and by hand.
import { StoredSeries, smoothPicture, smoothSeries } from '../../hosts/js/dungdapple.mjs';
import * as best from './best.mjs';
// a second copy, so that the engine compiles each for the one kind of array that it meets
import * as bestOfInt32 from './best.mjs?int32';
import * as bigint from './bigint.mjs';
import { done, measured } from './harness.mjs';
import * as plain from './plain.mjs';

const exact = (results) => BigInt64Array.from(results, BigInt);

// All programs share the slices, so that none finds them in a better cache than the others.
function slices({ n, samples }) {
  return {
    doubles: Float64Array.from(samples), whole: BigInt64Array.from(samples, BigInt),
    results: new Float64Array(n), results64: new BigInt64Array(n),
  };
}

export function seriesMeasures(work) {
  const { plan, bound, n, samples } = work;
  const { doubles, whole, results, results64 } = slices(work);
  let returned = null;
  measured(work, { name: 'smooth', cells: n }, [
    {
      name: 'js-ours-int32',
      start: () => results64.fill(0n),
      run: () => done(smoothSeries(plan, bound, samples, results64)),
      saved: () => results64,
    },
    {
      name: 'js-ours-float64',
      start: () => results.fill(0),
      run: () => done(smoothSeries(plan, bound, doubles, results)),
      saved: () => exact(results),
    },
    {
      name: 'js-ours-resident',
      run: () => {
        const series = new StoredSeries(plan, bound, samples);
        done(series.answer);
        series.free();
      },
      saved: () => new StoredSeries(plan, bound, samples).results64,
    },
    {
      name: 'js-best',
      start: () => results.fill(0),
      run: () => best.smoothSeries(plan, bound, doubles, results),
      saved: () => exact(results),
    },
    {
      name: 'js-best-int32',
      start: () => results.fill(0),
      run: () => bestOfInt32.smoothSeries(plan, bound, samples, results),
      saved: () => exact(results),
    },
    {
      name: 'js-plain',
      run: () => {
        returned = plain.smoothSeries(plan, bound, doubles);
      },
      saved: () => exact(returned),
    },
    {
      name: 'js-bigint',
      start: () => results64.fill(0n),
      run: () => bigint.smoothSeries(plan, bound, whole, results64),
      saved: () => results64,
    },
  ]);
}

export function pictureMeasures(work) {
  const { plan, bound, n, samples } = work;
  const { doubles, results, results64 } = slices(work);
  const plans = { across: plan, down: plan };
  measured(work, { name: 'smooth', cells: n }, [
    {
      name: 'js-ours-int32',
      start: () => results64.fill(0n),
      run: () => done(smoothPicture(plans, bound, work, samples, results64)),
      saved: () => results64,
    },
    {
      name: 'js-ours-float64',
      start: () => results.fill(0),
      run: () => done(smoothPicture(plans, bound, work, doubles, results)),
      saved: () => exact(results),
    },
    {
      name: 'js-best',
      start: () => results.fill(0),
      run: () => best.smoothPicture(plan, bound, work, doubles, results),
      saved: () => exact(results),
    },
  ]);
}
