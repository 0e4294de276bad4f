// The three demands, from JavaScript: what is refused changes nothing; results are the convolution with the kernel;
// after any edits they are a fresh smoothing, and an edit moves exactly the results within reach, and counts them.
import { anyBound, anyPlan, anySamples, chance, pick } from '../../../reference/inputs.mjs';
import {
  divisorOf, kernelOf, pictureByDoubleSum, reachOf, resultAt, seriesResults,
} from '../../../reference/smoothing.mjs';
import { StoredSeries, divisor, editSeries, point, reach, smoothPicture, smoothSeries } from '../dungdapple.mjs';
import { holds, same, tell } from './counting.mjs';

const EDITS = 1_000;
const below = chance(30);

const plan = (radius, inner, edge, passes) => ({ radius, inner, edge, passes });

// Reaches below the length, above it, and over several reflections.
const CHAINS = [
  { plan: plan(1, 2, 1, 1), bound: 9, length: 40 },
  { plan: plan(2, 3, 1, 3), bound: 1_000, length: 33 },
  { plan: plan(0, 1, 0, 1), bound: 2 ** 31 - 1, length: 7 },
  { plan: plan(9, 5, 4, 2), bound: 50_000, length: 12 },
  { plan: plan(1, 2, 1, 8), bound: 536_870_911, length: 25 },
  { plan: plan(20, 1, 0, 1), bound: 7, length: 1 },
];

// An edit and the number it gets. A number that is given is tested before the ones above it.
function anyEdit({ bound, length }, samples) {
  const position = below(length);
  const value = pick(below, [bound, -bound, 0, below(bound + 1) - below(bound + 1)]);
  const kind = below(10);
  if (kind === 0) return { position, value: samples[position], number: 0 };
  if (kind === 1) return { position: pick(below, [length, -1, 0.5, NaN, 2 ** 53, Infinity, '0']), value, number: 9 };
  if (kind === 2) return { position, value: pick(below, [bound + 1, -bound - 1, 0.5, NaN, 1e300, null]), number: 10 };
  return { position, value, number: 0 };
}

const bigs = (list) => BigInt64Array.from(list, BigInt);
const doubles = (list) => Float64Array.from(list);
const HOLDERS = [
  { note: 'typed arrays', ofSamples: (list) => Int32Array.from(list), ofResults: bigs },
  { note: 'doubles', ofSamples: doubles, ofResults: doubles },
  { note: 'an Array', ofSamples: (list) => [...list], ofResults: bigs },
];

const numbers = (slice) => Array.from(slice, Number);

// The same chain with every way of holding a series, each state compared with the definition.
function chain(chosen) {
  const title = `chain ${JSON.stringify(chosen)}`;
  const { plan: p, bound, length } = chosen;
  let samples = anySamples(below, length, bound);
  let results = seriesResults(p, samples);
  const held = HOLDERS.map(({ note, ofSamples, ofResults }) => (
    { note, samples: ofSamples(samples), results: ofResults(results) }));
  const series = new StoredSeries(p, bound, samples);
  const distance = reachOf(p);
  let refused = 0;
  for (let n = 0; n < EDITS; n += 1) {
    const { position, value, number } = anyEdit(chosen, samples);
    const after = number === 0 ? samples.with(position, value) : samples;
    const fresh = number === 0 ? seriesResults(p, after) : results;
    const moved = fresh.map((result, at) => at).filter((at) => fresh[at] !== results[at]);
    const within = fresh.map((_, at) => at).filter((at) => Math.abs(at - position) <= distance);
    const same2 = number !== 0 || value === samples[position];
    same(`${title}: moves what is within reach`, moved, same2 ? [] : within);
    const answer = { number, position: 0, count: moved.length, bad: 0 };
    for (const each of held) {
      const got = editSeries(p, bound, position, value, each.samples, each.results);
      same(`${title}, ${each.note}: answer`, got, answer);
      same(`${title}, ${each.note}: samples`, numbers(each.samples), after);
      same(`${title}, ${each.note}: results`, numbers(each.results), fresh);
    }
    const rows = moved.length === 0 ? { from: 0, to: 0 } : { from: moved[0], to: moved[moved.length - 1] + 1 };
    same(`${title}, stored: answer`, series.edit(position, value), { ...answer, ...rows });
    same(`${title}, stored: samples`, numbers(series.samples), after);
    same(`${title}, stored: results`, numbers(series.results), fresh);
    [samples, results, refused] = [after, fresh, refused + (number === 0 ? 0 : 1)];
  }
  holds(`${title}: some refused`, refused > EDITS / 20 && refused < EDITS / 2);
  series.free();
}

// Smoothing, points, divisor and reach of chosen series.
function anySmoothings() {
  for (let n = 0; n < 200; n += 1) {
    const p = anyPlan(below, 1 + below(8));
    const bound = anyBound(below, p);
    const samples = anySamples(below, 1 + below(20), bound);
    const results = new Float64Array(samples.length);
    same('smoothing: answer', smoothSeries(p, bound, samples, results), { number: 0, position: 0, bad: 0 });
    const wanted = seriesResults(p, samples);
    same('smoothing', numbers(results), wanted);
    same('divisor and reach', [divisor(p), reach(p)], [Number(divisorOf(p)), reachOf(p)]);
    const at = below(samples.length);
    same('point', point(p, bound, at, samples).value, wanted[at] / Number(divisorOf(p)));
  }
}

function anyPictures() {
  for (let n = 0; n < 40; n += 1) {
    const [across, down] = [anyPlan(below, 1 + below(2), 2n ** 20n), anyPlan(below, 1 + below(2), 2n ** 20n)];
    const bound = anyBound(below, across, down);
    const [width, height] = [1 + below(6), 1 + below(6)];
    const samples = anySamples(below, width * height, bound);
    const results = new Float64Array(samples.length);
    same('picture: answer', smoothPicture({ across, down }, bound, { width, height }, samples, results).number, 0);
    const wanted = pictureByDoubleSum(kernelOf(across), kernelOf(down), { samples, width, height });
    same('picture', numbers(results), wanted);
  }
}

// The longest series, with the widest reach: edits near and far from its ends, each compared where it moves and
// beside.
function longest() {
  const chosen = { plan: plan(1023, 2, 1, 4), bound: 31, length: 65_536 };
  const samples = Int32Array.from({ length: chosen.length }, () => below(63) - 31);
  const series = new StoredSeries(chosen.plan, chosen.bound, samples);
  const kernel = kernelOf(chosen.plan);
  const distance = reachOf(chosen.plan);
  for (const position of [0, 1, 4_095, 30_000, 65_535]) {
    const value = samples[position] === 31 ? -31 : 31;
    const before = series.results;
    const { number, count, from, to } = series.edit(position, value);
    samples[position] = value;
    const after = series.results;
    const [first, end] = [Math.max(0, position - distance), Math.min(chosen.length, position + distance + 1)];
    same('longest: answer', [number, count, from, to], [0, end - first, first, end]);
    holds('longest: what is moved', after.every((result, n) => (result !== before[n]) === (n >= from && n < to)));
    for (const n of [from, position, to - 1]) same('longest: a result', after[n], resultAt(kernel, samples, n));
  }
  const fresh = new Float64Array(chosen.length);
  smoothSeries(chosen.plan, chosen.bound, samples, fresh);
  same('longest: a fresh smoothing', series.results, fresh);
  series.free();
}

CHAINS.forEach(chain);
anySmoothings();
anyPictures();
longest();
tell();
