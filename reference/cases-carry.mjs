// Cases of calls 15 and 16: whole numbers of a series and of a picture that carry their remainders.
// The lists are as those of the other outputs, whose cases of chosen results and of refusals are shared.
import { divisorOfAll } from './calls.mjs';
import { divisorOf, pictureResults, seriesResults } from './smoothing.mjs';
import {
  EIGHT, EXACT, EXACT_BOUND, FIVE, LARGE, LARGE_BOUND, MOST_BOUND, ONE, SEVENS, THREE, TWO, WIDEST, WIDEST_BOUND,
  anyBound, anyPatches, anyPlan, anySamples, anySeries, chance, filled, largestBound, plan, times,
} from './inputs.mjs';
import {
  LIMIT_LISTS, PICTURE_LIMIT_LISTS, WHOLE_CELLS, pictureOutputs, seriesOutputs, sidesOf,
} from './cases-outputs.mjs';

// The largest divisor of a series, 208,063^3, which allows no bound but 1.
const HEAVIEST = plan(407, 255, 119, 3);

// Divisor 2^11 a pass. Two passes have the largest divisor that the largest bound allows.
const ELEVEN = plan(3, 230, 219, 1);
const TWENTY_TWO = { ...ELEVEN, passes: 2 };

// Results whose carries and cells are at the ends of their ranges, for any divisor above 1.
function endLists(divisor, bound) {
  const most = divisor * BigInt(bound);
  return [
    ['all at the limit', filled(4, most)],
    ['all at minus the limit', filled(4, -most)],
    ['all one below the limit', filled(5, most - 1n)],
    ['all one above minus the limit', filled(5, 1n - most)],
    ['the largest carry throughout, cells at both limits', [-1n, most, -most, most]],
    ['the largest carry and 0 in turn, 0 last', [-1n, 1n, divisor - 1n, 1n - divisor]],
    ['0 and the largest carry in turn, the largest last', [most, divisor - 1n, 1n, -1n, -divisor]],
  ];
}

const SERIES_ENDS = [
  ['divisor 8', EIGHT, 9],
  ['largest bound', TWENTY_TWO, MOST_BOUND],
  ['largest divisor', HEAVIEST, 1],
].flatMap(([name, chosen, bound]) => endLists(divisorOf(chosen), bound).map(([note, results]) => (
  [`${name}, ${note}`, chosen, bound, results])));

const CARRY_LISTS = [
  ['example', EIGHT, 4, [16, 12, 4]],
  ['example, negated', EIGHT, 4, [-16, -12, -4]],
  ['example of no smoothing', EIGHT, 4, [7, -1, 5]],
  ['divisor 1', ONE, MOST_BOUND, [MOST_BOUND, -MOST_BOUND, 0, 1, -1]],
  ['divisor 1, one result', ONE, 1, [-1]],
  ['divisor 2', TWO, 9, times(11, (n) => n - 5)],
  ['every result of 3 under 10', THREE, 10, times(61, (n) => n - 30)],
  ['every carry, rising', EIGHT, 9, filled(17, 1)],
  ['every carry, falling', EIGHT, 9, filled(17, -1)],
  ['every carry of 5, rising by 2', FIVE, 9, filled(6, -3)],
  ['zeros behind a carry', THREE, 10, [2, 0, 0, 0]],
  ['zeros behind a negative result', THREE, 10, [-1, 0, 0, 0]],
  ['all zero', THREE, 10, [0, 0, 0]],
  ['whole quotients', SEVENS, 9, [1n, -1n, 0n, 9n, -9n].map((each) => each * divisorOf(SEVENS))],
  ['above the limit behind the largest carry', EIGHT, 9, [7, 73]],
  ['below minus the limit, though not with its carry', EIGHT, 9, [7, -73]],
  ...[0, 7, 8, 72, -1, -8, -72].map((result) => ['one result', EIGHT, 9, [result]]),
];

// Smoothings, whose last carry is 0.

function smoothedSeries(note, chosen, bound, samples) {
  return [`smoothing: ${note}`, chosen, bound, seriesResults(chosen, samples)];
}

const BOUND_OF_SEVENS = Number(largestBound(SEVENS));
const MOST_OF_SEVENS = BOUND_OF_SEVENS * Number(divisorOf(SEVENS));

const SMOOTHED_SERIES = [
  smoothedSeries('two passes', plan(1, 1, 0, 2), 9, [0, 0, 9, 0, 0]),
  smoothedSeries('two passes, negated', plan(1, 1, 0, 2), 9, [0, 0, -9, 0, 0]),
  smoothedSeries('one sample', plan(2, 3, 2, 2), 9, [-9]),
  smoothedSeries('all at the bound', plan(0, 3, 1, 2), 7, [7, 7, 7]),
  smoothedSeries('both signs', plan(1, 2, 1, 3), 100, [100, -100, 37, -1, 0, 2, -50]),
  smoothedSeries('largest product', LARGE, LARGE_BOUND, [LARGE_BOUND, -LARGE_BOUND, 1, -LARGE_BOUND]),
  smoothedSeries('largest bound', TWENTY_TWO, MOST_BOUND, [-MOST_BOUND, MOST_BOUND, -MOST_BOUND, 5]),
  smoothedSeries('largest divisor', HEAVIEST, 1, [1, -1, 0, 1, 0]),
  smoothedSeries('widest reach', WIDEST, WIDEST_BOUND, [31, -31, 0]),
  smoothedSeries('divisor 7^8', SEVENS, BOUND_OF_SEVENS, [BOUND_OF_SEVENS, 0, 0, -1, 12_345]),
];

function chosenSeries() {
  const below = chance(315);
  const short = times(10, (n) => {
    const { plan: each, bound, samples } = anySeries(below, n);
    return smoothedSeries(`chosen ${n + 1}`, each, bound, samples);
  });
  const long = [[64, LARGE, LARGE_BOUND], [350, plan(12, 4, 3, 7), 59], [3_000, plan(5, 3, 1, 3), 1_000]]
    .map(([length, each, bound]) => (
      smoothedSeries(`${length} samples`, each, bound, anySamples(below, length, bound))));
  const arbitrary = ['1,000 arbitrary results', SEVENS, BOUND_OF_SEVENS, anySamples(below, 1_000, MOST_OF_SEVENS)];
  return [...short, ...long, arbitrary];
}

function carrySeriesCases() {
  return seriesOutputs(15, WHOLE_CELLS, [
    ...CARRY_LISTS, ...SERIES_ENDS, ...LIMIT_LISTS, ...SMOOTHED_SERIES, ...chosenSeries(),
  ]);
}

// Pictures: one run over the cells, row after row.

const PICTURE_ENDS = [
  ['divisor 3 times 5', [THREE, FIVE], 10],
  ['product 2^53 - 1', EXACT, EXACT_BOUND],
  ['largest bound', [ELEVEN, ELEVEN], MOST_BOUND],
  ['large divisors', [TWENTY_TWO, plan(90, 254, 183, 2)], 1],
].flatMap(([name, plans, bound]) => endLists(divisorOfAll(plans), bound).map(([note, results], n) => (
  [`${name}, ${note}`, plans, bound, sidesOf(results.length, n), results])));

const CARRY_PICTURES = [
  ['example', [FIVE, FIVE], 1, [2, 2], [16, 4, 4, 1]],
  ['example, negated', [FIVE, FIVE], 1, [2, 2], [-16, -4, -4, -1]],
  ['divisor 1', [ONE, ONE], MOST_BOUND, [2, 2], [MOST_BOUND, -MOST_BOUND, 1, -1]],
  ['divisor is the product', [THREE, EIGHT], 10, [3, 2], [240, -240, 12, -12, 36, -37]],
  ['carried from row to row', [TWO, TWO], 9, [1, 4], [3, 3, 3, 3]],
  ['carried along a row', [TWO, TWO], 9, [4, 1], [-3, -3, -3, -3]],
  ['row order is not column order', [TWO, TWO], 9, [3, 2], [3, 1, 0, 1, 0, 0]],
  ['two results too large, the first in row order not the first in column order', [TWO, TWO], 9, [3, 2],
    [3, 0, 37, -37, 0, 0]],
  ['one cell', [THREE, EIGHT], 10, [1, 1], [-1]],
];

function smoothedPicture(note, plans, bound, [width, height], samples) {
  const results = pictureResults(...plans, { samples, width, height });
  return [`smoothing: ${note}`, plans, bound, [width, height], results];
}

const NINES = [9, -8, 7, -6, 5, -4, 3, -2, 1, 0, 9, -9];

const SMOOTHED_PICTURES = [
  smoothedPicture('one cell', [plan(3, 2, 1, 2), THREE], 9, [1, 1], [-9]),
  smoothedPicture('one row', [plan(1, 2, 1, 2), plan(5, 1, 0, 1)], 9, [5, 1], NINES.slice(0, 5)),
  smoothedPicture('one column', [plan(5, 1, 0, 1), plan(1, 2, 1, 2)], 9, [1, 5], NINES.slice(0, 5)),
  smoothedPicture('4 by 3', [plan(2, 3, 1, 2), plan(0, 5, 2, 3)], 9, [4, 3], NINES),
  smoothedPicture('3 by 4', [plan(2, 3, 1, 2), plan(0, 5, 2, 3)], 9, [3, 4], NINES),
  smoothedPicture('radii above both sides', [plan(7, 1, 0, 2), plan(4, 3, 2, 1)], 9, [6, 2], NINES),
  smoothedPicture('across only', [EIGHT, ONE], 9, [4, 3], NINES),
  smoothedPicture('down only', [ONE, EIGHT], 9, [4, 3], NINES),
  smoothedPicture('product 2^53 - 1', EXACT, EXACT_BOUND, [2, 2], [EXACT_BOUND, -EXACT_BOUND, 1, -EXACT_BOUND]),
  smoothedPicture('largest bound', [ELEVEN, ELEVEN], MOST_BOUND, [2, 2], [-MOST_BOUND, MOST_BOUND, 5, -MOST_BOUND]),
];

function chosenPictures() {
  const below = chance(316);
  const short = times(8, (n) => {
    const plans = [anyPlan(below, 1 + n % 8, 2n ** 30n), anyPlan(below, 1 + below(3), 2n ** 23n)];
    const bound = anyBound(below, ...plans);
    const [width, height] = [1 + below(4), 1 + below(4)];
    return smoothedPicture(`chosen ${n + 1}`, plans, bound, [width, height], anySamples(below, width * height, bound));
  });
  const long = [[[9, 8], [plan(1, 1, 0, 8), EIGHT]], [[60, 40], [plan(5, 3, 1, 2), plan(2, 16, 7, 1)]]]
    .map(([[width, height], plans]) => {
      const samples = anyPatches(below, width * height, 1_000);
      return smoothedPicture(`${width} by ${height}`, plans, 1_000, [width, height], samples);
    });
  const arbitrary = ['40 by 20, arbitrary results', EXACT, EXACT_BOUND, [40, 20], anySamples(below, 800, 2 ** 53 - 1)];
  return [...short, ...long, arbitrary];
}

function carryPictureCases() {
  return pictureOutputs(16, WHOLE_CELLS, [
    ...CARRY_PICTURES, ...PICTURE_ENDS, ...PICTURE_LIMIT_LISTS, ...SMOOTHED_PICTURES, ...chosenPictures(),
  ]);
}

export const casesOfCarries = { 15: carrySeriesCases, 16: carryPictureCases };
