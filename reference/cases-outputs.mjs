// Cases of calls 6, 8, 9, 11 and 12: doubles in, and doubles and summary of a series and of a picture; and what their
// cases share with those of whole numbers out.
import { divisorOf } from './smoothing.mjs';
import {
  BAD_SAMPLES, EIGHT, EXACT, EXACT_BOUND, FIVE, LARGE, LARGE_BOUND, LARGE_MOST, LARGEST_I64, LEAST_I32, LEAST_I64,
  MOST_BOUND, NEGATIVE_NAN, ONE, QUIET_NAN, SEVENS, SIGNALLING_NAN, THREE, TWO,
  anyBound, anyPlan, anySamples, chance, filled, junk, largestBound, pick, plan, times,
} from './inputs.mjs';
import { BOUND_FAULTS, PICTURE_LIMITS, SERIES_LIMITS, fault, faultCases, lengthFaults, put } from './faults.mjs';
import { bitsOf } from './stream.mjs';

// Call 6. Doubles are given as their bits.

export function bitsOfAll(doubles) {
  return doubles.map((each) => (typeof each === 'bigint' ? each : bitsOf(each)));
}

function doublesInCase(note, bound, doubles, samples = filled(doubles.length, 7)) {
  return { note, args: { bound, doubles: bitsOfAll(doubles), samples } };
}

const SINGLE_DOUBLES = [
  0, -0, 1, -1, 0.5, -0.5, 1.5, 0.9999999999999999, 1.0000000000000002, -1.0000000000000002,
  Infinity, -Infinity, QUIET_NAN, NEGATIVE_NAN, SIGNALLING_NAN,
  5e-324, -5e-324, 2.2250738585072009e-308, 2.2250738585072014e-308, 1e-300,
  MOST_BOUND, -MOST_BOUND, MOST_BOUND - 2 ** -22, MOST_BOUND + 2 ** -21, MOST_BOUND + 0.5, -MOST_BOUND - 0.5,
  2 ** 31, -(2 ** 31), -(2 ** 31) - 1, 2 ** 32, 2 ** 32 + 1, 2 ** 52 + 0.5, 2 ** 53 - 1, 2 ** 53, 2 ** 53 + 2,
  2 ** 63, -(2 ** 63), 2 ** 64, 2 ** 64 + 4096, 1e300, -Number.MAX_VALUE, Number.MAX_VALUE, 12345678, -12345678,
];

const DOUBLES_EDGES = [
  ...[9, -9, 10, -10, 9.5, -9.5, 8.999999999999998].map((each) => doublesInCase('about the bound', 9, [each])),
  ...[1, -1, 2, 0.1].map((each) => doublesInCase('about bound 1', 1, [each])),
  doublesInCase('mixed, accepted', 1000, [0, -0, 1000, -1000, 1, -1, 512, 999]),
  doublesInCase('mixed, the first bad one counts', 1000, [0, 1, 1000.5, Infinity, QUIET_NAN]),
  ...BAD_SAMPLES.map(([note, doubles]) => doublesInCase(note, 9, doubles)),
  doublesInCase('all bad, each in its way', 9, [QUIET_NAN, -Infinity, 0.5, 10, 5e-324, NEGATIVE_NAN, 2 ** 63]),
  doublesInCase('every other bad', 9, [0.5, 1, -0.5, -0, Infinity, 9, SIGNALLING_NAN]),
  doublesInCase('65,536 doubles, all bad', 9, filled(65_536, 9.5)),
  doublesInCase('all bad, and samples short', 9, [0.5, 10], [7]),
  doublesInCase('bad at the end', 1000, [0, 1, 2, 3, 1001]),
  doublesInCase('bad at the start', 1000, [QUIET_NAN, 1, 2, 3]),
  doublesInCase('samples at entry stay when refused', 1, [2, 0], [LEAST_I32, MOST_BOUND]),
  doublesInCase('65 doubles', 100, times(65, (n) => n - 50)),
  doublesInCase('65 doubles refused', 10, times(65, (n) => n - 10)),
  doublesInCase('65,536 doubles', 100, [...filled(40_000, 9), ...filled(25_536, -100)]),
  doublesInCase('65,537 doubles', 100, filled(65_537, 9)),
  doublesInCase('65,537 doubles, not acceptable, samples empty', 100, filled(65_537, 0.5), []),
];

function doublesInFaults() {
  const good = doublesInCase('', 1000, [5, -3, 1000]).args;
  return faultCases(6, good, [
    ...BOUND_FAULTS,
    fault(7, 'no doubles', () => ({ doubles: [], samples: [] })),
    ...lengthFaults('samples'),
    fault(11, 'above the bound', put('doubles', 2, bitsOf(1001))),
    fault(11, 'not whole', put('doubles', 0, bitsOf(0.25))),
    fault(11, 'not a number', put('doubles', 1, QUIET_NAN)),
  ]);
}

function doublesInCases() {
  const below = chance(206);
  const single = SINGLE_DOUBLES.map((each) => doublesInCase('alone', MOST_BOUND, [each]));
  const chosen = times(20, (n) => {
    const bound = pick(below, [1, 9, 1000, MOST_BOUND]);
    const doubles = anySamples(below, 1 + below(8), bound);
    if (n % 3 === 0) doubles[below(doubles.length)] = pick(below, SINGLE_DOUBLES);
    return doublesInCase('chosen', bound, doubles, junk(below, doubles.length));
  });
  return [...single, ...DOUBLES_EDGES, ...doublesInFaults(), ...chosen];
}

// The outputs.
// One list of results serves all three: a series as it stands, a picture by sides.
// A case of the list is a note, a plan, a bound and results; a picture's is two plans, a bound, sides and results.

const BASE = 2n ** 30n * divisorOf(SEVENS);
const BOUND_OF_SEVENS = largestBound(SEVENS);
const HALF_OF_SEVENS = divisorOf(SEVENS) / 2n;

function about(divisor, low, high) {
  const half = Math.floor(divisor / 2);
  const near = [-half - 1, -half, -half + 1, half - 1, half, half + 1];
  return times(high - low + 1, (n) => low + n).flatMap((whole) => near.map((each) => whole * divisor + each));
}

// Results above the limits, and long lists.
export const LIMIT_LISTS = [
  ['above at 1', THREE, 10, [0, 31]],
  ['below at 0, above at 1', THREE, 10, [-31, 31]],
  ['above at 2, the first of two', THREE, 10, [0, 0, 31, LEAST_I64]],
  ['least 64-bit', THREE, 10, [0, LEAST_I64]],
  ['largest 64-bit', THREE, 10, [LARGEST_I64]],
  ['one above the largest product', LARGE, LARGE_BOUND, [LARGE_MOST, LARGE_MOST + 1n]],
  ['one below minus the largest product', LARGE, LARGE_BOUND, [-LARGE_MOST, 0, -LARGE_MOST - 1n]],
  ['2^53 is one above 2^53 - 1', LARGE, LARGE_BOUND, [2n ** 53n]],
  ['65 results', EIGHT, 9, times(65, (n) => n - 40)],
  ['65,536 results', EIGHT, 9, [...filled(40_000, 9), ...filled(25_536, -68)]],
  ['65,537 results', EIGHT, 9, filled(65_537, 99)],
];

export const RESULT_LISTS = [
  ['example', EIGHT, 4, [16, 12, 4]],
  ['example, negated', EIGHT, 4, [-16, -12, -4]],
  ['halves of 2', TWO, 9, [-5, -4, -3, -2, -1, 0, 1, 2, 3, 4, 5]],
  ['about halves of 8, negative', EIGHT, 9, about(8, -2, 0)],
  ['about halves of 8, positive', EIGHT, 9, about(8, 0, 2)],
  ['about halves of 5, which has none', FIVE, 9, about(5, -1, 1)],
  ['about halves of 3', THREE, 9, about(3, -1, 1)],
  ['divisor 1', ONE, MOST_BOUND, [MOST_BOUND, -MOST_BOUND, 0, 1, -1]],
  ['at the limits', THREE, 10, [30, -30, 29, -29]],
  ['one', THREE, 1, [-1]],
  ['one zero', THREE, 1, [0]],
  ['all zero', THREE, 1, [0, 0, 0]],
  ['tie of lowest', THREE, 10, [5, -7, 3, -7, 5]],
  ['tie of highest', THREE, 10, [-1, 4, 4, -2, -2]],
  ['all equal', THREE, 10, [-8, -8, -8]],
  ['falling', THREE, 10, [9, 5, 0, -5, -9]],
  ['rising', THREE, 10, [-9, -5, 0, 5, 9]],
  ['largest product', LARGE, LARGE_BOUND, [LARGE_MOST, -LARGE_MOST, LARGE_MOST - 1n]],
  ['halves at the largest product', LARGE, LARGE_BOUND, [
    LARGE_MOST - 2n ** 23n, LARGE_MOST - 2n ** 23n - 1n,
    -LARGE_MOST + 2n ** 23n, -LARGE_MOST + 2n ** 23n - 1n,
  ]],
  ['next to a half, where the double quotient is the half itself', SEVENS, BOUND_OF_SEVENS, [
    BASE + HALF_OF_SEVENS, BASE + HALF_OF_SEVENS + 1n, -BASE - HALF_OF_SEVENS, -BASE - HALF_OF_SEVENS - 1n,
  ]],
  ['different results with one quotient, lowest last', SEVENS, BOUND_OF_SEVENS, [BASE + 2n, BASE + 1n]],
  ['different results with one quotient, highest last', SEVENS, BOUND_OF_SEVENS, [BASE + 1n, BASE + 2n]],
  ['different negative results with one quotient', SEVENS, BOUND_OF_SEVENS, [-BASE - 1n, -BASE - 2n, -BASE - 1n]],
  ['quotients that are rounded', plan(1, 3, 2, 3), 9999, [1, -1, 2, 7, 1000, -999_999]],
  ...LIMIT_LISTS,
];

function chosenResults(below, length, plans, bound) {
  const divisor = plans.reduce((product, each) => product * divisorOf(each), 1n);
  const most = bound * Number(divisor);
  const half = Number(divisor / 2n);
  const nearHalf = () => (below(2 * bound) - bound) * Number(divisor) + half;
  return times(length, () => pick(below, [anySamples(below, 1, most)[0], nearHalf(), -below(100), below(100)]))
    .map((result) => Math.max(-most, Math.min(most, result)));
}

function chosenSeriesLists(below) {
  return times(24, (n) => {
    const chosen = anyPlan(below, 1 + n % 8);
    const bound = anyBound(below, chosen);
    return ['chosen', chosen, bound, chosenResults(below, 1 + below(9), [chosen], bound)];
  });
}

// The cells at entry: whole ones and doubles, among them values that no conversion could keep.
export const WHOLE_CELLS = (length) => times(length, (n) => [7, LEAST_I32, -7][n] ?? 8);
export const DOUBLE_CELLS = (length) => times(length, (n) => (
  [bitsOf(-0), NEGATIVE_NAN, SIGNALLING_NAN][n] ?? bitsOf(0.1)));
const NO_CELLS = null;

function withCells(args, cells) {
  return cells ? { ...args, cells: cells(args.results.length) } : args;
}

function resultFaults() {
  return [
    fault(12, 'first result above', put('results', 0, 1_000_000_000)),
    fault(12, 'last result below', put('results', 1, -1_000_000_000)),
    fault(12, 'least 64-bit result', put('results', 1, LEAST_I64)),
  ];
}

// The cases of a call that puts results out: these lists and chosen ones; refusals; both.
export function listedSeries(call, cells, lists) {
  const all = [...lists, ...chosenSeriesLists(chance(200 + call))];
  return all.map(([note, chosen, bound, results]) => (
    { note, args: withCells({ plan: chosen, bound, results }, cells) }));
}

export function seriesFaults(call, cells, more = {}, moreFaults = []) {
  const good = withCells({ plan: EIGHT, bound: 1000, ...more, results: [5, -3] }, cells);
  return faultCases(call, good, [
    ...SERIES_LIMITS,
    fault(7, 'no results', () => (cells ? { results: [], cells: [] } : { results: [] })),
    ...(cells ? lengthFaults('cells') : []),
    ...resultFaults(),
    ...moreFaults,
  ]);
}

export function seriesOutputs(call, cells, lists) {
  return [...listedSeries(call, cells, lists), ...seriesFaults(call, cells)];
}

// The lists again as pictures of one row or column, with the plan across or down; and pictures proper.
export function sidesOf(length, n) {
  if (length % 2 === 0) return [2, length / 2];
  return n % 2 === 0 ? [length, 1] : [1, length];
}

export function asPictures(lists) {
  return lists.filter(([, , , results]) => results.length < 100).map(([note, chosen, bound, results], n) => {
    const plans = n % 2 === 0 ? [chosen, ONE] : [ONE, chosen];
    return [note, plans, bound, sidesOf(results.length, n), results];
  });
}

const MOST_EXACT = 2n ** 53n - 1n;

// Results about the limits, and sides.
export const PICTURE_LIMIT_LISTS = [
  ['one above the product', [THREE, EIGHT], 10, [2, 2], [0, 0, 241, 0]],
  ['product 2^53 - 1', EXACT, EXACT_BOUND, [2, 2], [MOST_EXACT, -MOST_EXACT, MOST_EXACT - 1n, 1]],
  ['2^53, product 2^53 - 1', EXACT, EXACT_BOUND, [2, 1], [0, 2n ** 53n]],
  ['-2^53, product 2^53 - 1', EXACT, EXACT_BOUND, [2, 1], [0, -(2n ** 53n)]],
  ['bound one above product 2^53 - 1', EXACT, EXACT_BOUND + 1, [2, 1], [0, 0]],
  ['4096 by 16', [THREE, EIGHT], 10, [4096, 16], [...filled(40_000, 9), ...filled(25_536, -68)]],
  ['4097 by 1', [THREE, EIGHT], 10, [4097, 1], filled(4_097, 1)],
  ['257 by 256', [THREE, EIGHT], 10, [257, 256], filled(65_792, 1)],
  ['slices empty, sides good', [THREE, EIGHT], 10, [2, 2], []],
  ['slices empty, width 0', [THREE, EIGHT], 10, [0, 2], []],
  ['results one short', [THREE, EIGHT], 10, [2, 2], [1, 2, 3]],
  ['results one long', [THREE, EIGHT], 10, [2, 2], [1, 2, 3, 4, 5]],
];

export const PICTURE_LISTS = [
  ['example', [FIVE, FIVE], 1, [2, 2], [16, 4, 4, 1]],
  ['divisor is the product', [THREE, EIGHT], 10, [3, 2], [240, -240, 12, -12, 36, -36]],
  ...PICTURE_LIMIT_LISTS,
  ...asPictures(RESULT_LISTS),
];

function chosenPictureLists(below) {
  return times(16, (n) => {
    const across = anyPlan(below, 1 + n % 8, 2n ** 40n);
    const down = anyPlan(below, 1 + below(3), 2n ** 53n / divisorOf(across));
    const bound = anyBound(below, across, down);
    const sides = [1 + below(4), 1 + below(4)];
    const results = chosenResults(below, sides[0] * sides[1], [across, down], bound);
    return ['chosen', [across, down], bound, sides, results];
  });
}

export function listedPictures(call, cells, lists) {
  const all = [...lists, ...chosenPictureLists(chance(200 + call))];
  return all.map(([note, [across, down], bound, [width, height], results]) => (
    { note, args: withCells({ across, down, bound, width, height, results }, cells) }));
}

export function pictureFaults(call, cells, more = {}, moreFaults = []) {
  const sides = { across: EIGHT, down: THREE, bound: 1000, width: 1, height: 2 };
  return faultCases(call, withCells({ ...sides, ...more, results: [5, -3] }, cells), [
    ...PICTURE_LIMITS,
    ...lengthFaults('results'), ...(cells ? lengthFaults('cells') : []),
    ...resultFaults(),
    ...moreFaults,
  ]);
}

export function pictureOutputs(call, cells, lists) {
  return [...listedPictures(call, cells, lists), ...pictureFaults(call, cells)];
}

export const casesOfOutputs = {
  6: doublesInCases,
  8: () => seriesOutputs(8, DOUBLE_CELLS, RESULT_LISTS),
  9: () => seriesOutputs(9, NO_CELLS, RESULT_LISTS),
  11: () => pictureOutputs(11, DOUBLE_CELLS, PICTURE_LISTS),
  12: () => pictureOutputs(12, NO_CELLS, PICTURE_LISTS),
};
