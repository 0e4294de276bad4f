// Cases of call 1: smoothing a series.
import {
  BAD_SAMPLES, EIGHT, LARGE, LARGE_BOUND, LARGEST_I64, LEAST_I32, LEAST_I64, LONG_SERIES, MOST_BOUND, ONE, THREE, WIDE_LIMITS, WIDEST,
  anyBound, anySamples, anySeries, chance, filled, junk, largestBound, oneBadOf, plan, times,
} from './inputs.mjs';
import { EMPTY_SERIES, SAMPLE_FAULTS, SERIES_LIMITS, faultCases, lengthFaults } from './faults.mjs';

function seriesCase(note, chosen, bound, samples, more = {}) {
  const [results, work] = [filled(samples.length, 7), filled(samples.length, -7)];
  return { note, args: { plan: chosen, bound, samples, results, work, ...more } };
}

function seriesFaults() {
  const good = seriesCase('', plan(1, 2, 1, 2), 1000, [5, -3, 1000, 0], { results: [1, -2, 3, LEAST_I64] }).args;
  return faultCases(1, good, [
    ...SERIES_LIMITS, EMPTY_SERIES, ...lengthFaults('results'), ...lengthFaults('work'), ...SAMPLE_FAULTS,
  ]);
}

const SERIES_EXAMPLES = [
  seriesCase('example', THREE, 5, [5]),
  seriesCase('example', THREE, 9, [0, 0, 9, 0, 0]),
  seriesCase('example, two passes', plan(1, 1, 0, 2), 9, [0, 0, 9, 0, 0]),
  seriesCase('example', EIGHT, 8, [8, 0, 0]),
  seriesCase('example', plan(3, 1, 0, 1), 2, [1, 2]),
  seriesCase('example', plan(0, 3, 1, 2), 1, [1, 0]),
  seriesCase('example', plan(0, 3, 1, 2), 7, [7, 7, 7]),
  seriesCase('example', EIGHT, 4, [4, 0, 0]),
  seriesCase('example, negated', EIGHT, 4, [-4, 0, 0]),
  seriesCase('example, bound accepted', LARGE, LARGE_BOUND, [LARGE_BOUND, -LARGE_BOUND, 0]),
  seriesCase('example, bound refused', LARGE, LARGE_BOUND + 1, [LARGE_BOUND, -LARGE_BOUND, 0]),
];

// The largest bound that a plan allows, and one more.
const PRODUCT_EDGES = [
  plan(2, 3, 1, 5), plan(0, 98, 0, 8), plan(1023, 1, 0, 4), WIDEST, plan(20, 255, 254, 2), plan(5, 1, 0, 8),
  plan(0, 3, 2, 8),
].flatMap((chosen) => {
  const bound = largestBound(chosen);
  return [
    seriesCase('largest bound', chosen, bound, [bound, -bound, 0]),
    seriesCase('one above the largest bound', chosen, bound + 1n, [bound, -bound, 0]),
  ];
});

const SERIES_EDGES = [
  seriesCase('divisor itself too large', plan(0, 99, 0, 8), 1, [1]),
  seriesCase('one sample, radius far above', plan(1023, 1, 0, 1), 9, [-9]),
  seriesCase('one sample, identity', ONE, MOST_BOUND, [-MOST_BOUND]),
  seriesCase('one sample, heaviest weights', plan(1023, 255, 254, 1), MOST_BOUND, [MOST_BOUND]),
  seriesCase('two samples, widest reach', WIDEST, 31, [31, -30]),
  seriesCase('three samples, widest reach', WIDEST, 31, [0, 0, 31]),
  seriesCase('radius as length', plan(3, 2, 1, 1), 50, [50, -7, 3]),
  seriesCase('radius one above length', plan(4, 2, 1, 1), 50, [50, -7, 3]),
  seriesCase('edge weight one below inner', plan(2, 255, 254, 2), 1000, [1, 2, 3, 4, 5]),
  seriesCase('all at the bound', LARGE, LARGE_BOUND, filled(6, LARGE_BOUND)),
  seriesCase('all at minus the bound', LARGE, LARGE_BOUND, filled(6, -LARGE_BOUND)),
  seriesCase('least 32-bit sample at the largest bound', THREE, MOST_BOUND, [1, LEAST_I32, 3]),
  seriesCase('work as long as for an edit', THREE, 9, [1, 2], { work: filled(4, 5) }),
  seriesCase('extremes in the slices at entry', THREE, 9, [1, 2], {
    results: [LEAST_I64, LARGEST_I64], work: [LARGEST_I64, LEAST_I64],
  }),
  seriesCase('64 samples, printed whole', THREE, 9, times(64, (n) => n % 10)),
  seriesCase('65 samples, printed as a sum', THREE, 9, times(65, (n) => n % 10 - 9)),
  seriesCase('65 samples refused, slices as a sum', THREE, 8, times(65, (n) => n % 10 - 9)),
  seriesCase('65,536 samples', plan(2, 3, 1, 3), 9, [...filled(30_000, 9), ...filled(35_536, -4)]),
  seriesCase('65,537 samples', plan(2, 3, 1, 3), 9, filled(65_537, 9)),
  seriesCase('65,537 samples, not acceptable, work empty', THREE, 8, filled(65_537, 9), { work: [] }),
  seriesCase('work as long as the driver takes', THREE, 9, [1, 2], { work: filled(131_072, LEAST_I64) }),
  seriesCase('65 extremes as a sum', THREE, 8, filled(65, 9), {
    results: times(65, (n) => (n % 2 ? LARGEST_I64 : LEAST_I64)), work: filled(65, LARGEST_I64),
  }),
  seriesCase('samples empty, the others not', THREE, 9, [], { results: [1, 2], work: [3, 4] }),
  seriesCase('results and work alike, not as the samples', THREE, 9, [1, 2], { results: [1], work: [2] }),
  seriesCase('results long, work short', THREE, 9, [1, 2], { results: [1, 2, 3], work: [4] }),
  seriesCase('product 2^64', plan(0, 12, 10, 8), 2 ** 24, [1, -1]),
  seriesCase('product 2^64 + 2^40', plan(0, 12, 10, 8), 2 ** 24 + 1, [1, -1]),
  seriesCase('words above 32 bits as samples', THREE, 9, [2 ** 32 + 5, -(2 ** 40) - 3, 2 ** 33]),
  seriesCase('word 2^31 as a sample', THREE, MOST_BOUND, [1, 2 ** 31]),
];

const SERIES_BAD = [
  ...[...BAD_SAMPLES, ...oneBadOf(17)].map(([note, samples]) => seriesCase(note, THREE, 9, samples)),
  seriesCase('one sample, bad', THREE, 9, [10]),
  seriesCase('65,536 samples, all bad', THREE, 9, [...filled(30_000, 10), ...filled(35_536, LEAST_I32)]),
  seriesCase('65,536 samples, both ends bad', THREE, 9, filled(65_536, 9).with(0, 10).with(65_535, -10)),
  seriesCase('all bad, and the plan', plan(1, 2, 2, 1), 9, [10, 10]),
  seriesCase('all bad, and work short', THREE, 9, [10, 10], { work: [5] }),
];

const SERIES_WIDE = WIDE_LIMITS.map((each) => seriesCase(each.note, each.plan, each.bound, [1, -1]));

// Windows below, about and above the period of the extension.
const SERIES_WINDOWS = [[9], [50, -7], [50, -7, 3]].flatMap((samples) => times(8, (radius) => (
  seriesCase(`radius ${radius}`, plan(radius, 3, 2, 1), 50, samples))));

// Long series of varied samples. The largest bound of all is the checksum's modulus, in which samples of that size
// would count for nothing.
function longSeriesCases() {
  const below = chance(111);
  return LONG_SERIES.map(([note, length, chosen]) => {
    const bound = Math.min(anyBound(below, chosen), MOST_BOUND - 1);
    return seriesCase(`${length} samples, ${note}`, chosen, bound, anySamples(below, length, bound));
  });
}

function smoothSeriesCases() {
  const below = chance(101);
  const chosen = times(40, (n) => {
    const { plan: each, bound, samples, length } = anySeries(below, n);
    return seriesCase('chosen', each, bound, samples, { results: junk(below, length), work: junk(below, length) });
  });
  return [
    ...SERIES_EXAMPLES, ...PRODUCT_EDGES, ...SERIES_EDGES, ...SERIES_BAD, ...SERIES_WIDE, ...SERIES_WINDOWS,
    ...seriesFaults(), ...chosen, ...longSeriesCases(),
  ];
}

export const casesOfSmoothing = { 1: smoothSeriesCases };
