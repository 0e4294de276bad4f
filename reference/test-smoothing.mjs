// Smoothing, edit and point against facts that the requirements tell of them and that do not follow from how the
// reference computes.
import {
  centreOf, divisorOf, fold, kernelOf, pictureByDoubleSum, pictureBySeparateSums, pictureResults, reachOf,
  seriesResults, weightAt,
} from './smoothing.mjs';
import { doublesSeries, planByItself, summarySeries } from './calls.mjs';
import { anyBound, anyPlan, anySamples, chance } from './inputs.mjs';
import { edited, holds, outputArgs, plan, same, smoothed, total, valueAt } from './testing.mjs';

function foldByRemainder(n, length) {
  const m = ((n % (2 * length)) + 2 * length) % (2 * length);
  return m < length ? m : 2 * length - 1 - m;
}

function extensionFacts() {
  for (const length of [1, 2, 3, 7]) {
    for (let n = -40; n <= 40; n++) same(`extension of ${length} at ${n}`, fold(n, length), foldByRemainder(n, length));
  }
}

function sum(list) {
  return Array.from(list).reduce((total, each) => total + Number(each), 0);
}

function kernelFacts(chosen) {
  const kernel = kernelOf(chosen);
  const centre = centreOf(kernel);
  const reach = reachOf(chosen);
  same('kernel sum', sum(kernel), divisorOf(chosen));
  same('kernel is symmetric', kernel, kernel.slice().reverse());
  holds('taps reach as far as the reach', kernel.every((tap, at) => (tap > 0) === (Math.abs(at - centre) <= reach)));
  const own = planByItself({ plan: chosen });
  same('plan by itself', [own.divisor, own.reach], [sum(kernel), centre - kernel.findIndex((tap) => tap > 0)]);
}

function onePassAtATime(chosen, samples) {
  let results = Array.from(samples);
  for (let pass = 0; pass < Number(chosen.passes); pass++) results = seriesResults({ ...chosen, passes: 1 }, results);
  return results;
}

function weightedSums(chosen, samples) {
  const kernel = kernelOf(chosen);
  const length = samples.length;
  return samples.map((_, n) => sum(samples.map((sample, p) => weightAt(kernel, length, p, n) * sample)));
}

function seriesFacts(chosen, bound, samples) {
  const results = seriesResults(chosen, samples);
  same('one pass at a time', results, onePassAtATime(chosen, samples));
  same('sum of weighted samples', results, weightedSums(chosen, samples));
  same('reversed series', seriesResults(chosen, samples.slice().reverse()), results.slice().reverse());
  same('sum of results', total(results), total(samples) * divisorOf(chosen));
  holds('size of results', results.every((each) => Math.abs(each) <= bound * Number(divisorOf(chosen))));
}

function pointFacts(chosen, bound, samples) {
  const results = smoothed(chosen, samples, bound).results;
  const doubles = doublesSeries(outputArgs(chosen, bound, results, Float64Array));
  same('point is doubles out', samples.map((_, n) => valueAt(chosen, bound, n, samples).value), doubles.cells);
  const summary = summarySeries(outputArgs(chosen, bound, results, Float64Array));
  const { lowest, highest, indexOfLowest, indexOfHighest } = summary;
  same('lowest', [lowest, doubles.cells[indexOfLowest]], new Array(2).fill(Math.min(...doubles.cells)));
  same('highest', [highest, doubles.cells[indexOfHighest]], new Array(2).fill(Math.max(...doubles.cells)));
}

function editFacts(chosen, bound, samples, position, value) {
  const before = smoothed(chosen, samples, bound).results;
  const outcome = edited(chosen, bound, position, value, samples, before);
  const fresh = smoothed(chosen, samples.with(position, value), bound).results;
  same('edit number', outcome.number, 0);
  same('edit is fresh smoothing', outcome.results, fresh);
  same('edit count', outcome.count, fresh.filter((each, n) => each !== before[n]).length);
  same('edit samples and work', [outcome.samples, outcome.work],
    [samples.with(position, value), new BigInt64Array(2 * samples.length)]);
}

function chosenFacts() {
  const below = chance(1);
  for (let n = 0; n < 64; n++) {
    const { radius, inner, edge, passes } = anyPlan(below, 1 + n % 8);
    const chosen = plan(radius, inner, edge, passes);
    const bound = anyBound(below, chosen);
    const samples = anySamples(below, 1 + below(8), bound);
    kernelFacts(chosen);
    seriesFacts(chosen, bound, samples);
    pointFacts(chosen, bound, samples);
    editFacts(chosen, bound, samples, below(samples.length), anySamples(below, 1, bound)[0]);
  }
}

function transposed({ samples, width, height }) {
  const cells = samples.map((_, at) => samples[(at % height) * width + Math.floor(at / height)]);
  return { samples: cells, width: height, height: width };
}

function pictureFacts() {
  const below = chance(2);
  for (let n = 0; n < 24; n++) {
    const across = anyPlan(below, 1 + n % 4, 2n ** 24n);
    const down = anyPlan(below, 1 + below(4), 2n ** 24n);
    const [width, height] = [1 + below(4), 1 + below(4)];
    const picture = { samples: anySamples(below, width * height, 31), width, height };
    const kernels = [kernelOf(across), kernelOf(down)];
    const results = pictureByDoubleSum(...kernels, picture);
    same('double sum is separate sums', results, pictureBySeparateSums(...kernels, picture));
    const turned = pictureResults(down, across, transposed(picture));
    same('columns first', transposed({ samples: turned, width: height, height: width }).samples, results);
    if (height === 1) {
      const rowAlone = seriesResults(across, picture.samples);
      same('one row', results, rowAlone.map((each) => each * sum(kernels[1])));
    }
  }
}

export function testSmoothing() {
  extensionFacts();
  chosenFacts();
  pictureFacts();
}
