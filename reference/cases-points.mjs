// Cases of call 4: a point, which asks for one position and for twice as much work.
import {
  EIGHT, FARTHEST, LARGE, LARGE_BOUND, LARGEST_I64, LEAST_I32, LEAST_I64, LONG_SERIES, MOST_BOUND, ONE, SEVENS, THREE,
  WIDE_LIMITS, WIDEST, WIDEST_BOUND,
  anySamples, anySeries, chance, filled, junk, largestBound, oneBadOf, plan, times,
} from './inputs.mjs';
import { POSITION_FAULTS, SAMPLE_FAULTS, SERIES_LIMITS, fault, faultCases, lengthFaults } from './faults.mjs';

function pointCase(note, chosen, bound, position, samples, work = filled(2 * samples.length, -7)) {
  return { note, args: { plan: chosen, bound, position, samples, work } };
}

const POINT_EDGES = [
  ...times(3, (n) => pointCase('example', EIGHT, 8, n, [8, 0, 0])),
  ...times(5, (n) => pointCase('example', plan(1, 1, 0, 2), 9, n, [0, 0, 9, 0, 0])),
  pointCase('one sample', plan(2, 3, 1, 2), 9, 0, [-9]),
  pointCase('one sample, heaviest weights', plan(1023, 255, 254, 1), MOST_BOUND, 0, [MOST_BOUND]),
  pointCase('no finite binary fraction', THREE, 9, 1, [1, 0, 0]),
  pointCase('sum 0 gives plus zero', THREE, 9, 1, [-4, 0, 4]),
  pointCase('all zero', THREE, 9, 0, [0, 0]),
  pointCase('widest reach', WIDEST, WIDEST_BOUND, 2, [31, -31, 0, 7, 8]),
  pointCase('largest product', LARGE, LARGE_BOUND, 1, [LARGE_BOUND, LARGE_BOUND, -LARGE_BOUND]),
  pointCase('bad samples just past reach', THREE, 9, 2, [10, 1, 2, 3, LEAST_I32]),
  pointCase('bad sample at reach, below', THREE, 9, 2, [10, 10, 2, 3, LEAST_I32]),
  pointCase('bad sample at reach, above', THREE, 9, 2, [10, 1, 2, -10, LEAST_I32]),
  pointCase('bad sample itself', THREE, 9, 2, [10, 1, LEAST_I32, -10, 0]),
  pointCase('past reach, edge weight 0, two passes', plan(1, 2, 0, 2), 9, 0, [1, 2, 3, 10, 10]),
  pointCase('at reach, edge weight 1, two passes', plan(1, 2, 1, 2), 9, 0, [1, 2, 3, 4, 10]),
  pointCase('past reach, radius 0', plan(0, 2, 0, 8), 9, 1, [10, -9, 10]),
  pointCase('at reach, radius 0 with edge weight', plan(0, 2, 1, 1), 9, 1, [9, -9, 10]),
  pointCase('reach above length, last sample bad', plan(5, 2, 1, 1), 9, 0, [9, -9, 0, 10]),
  pointCase('work as long as for smoothing', THREE, 9, 0, [1, 2], [4, 5]),
  pointCase('extremes in work', THREE, 9, 0, [1], [LEAST_I64, LARGEST_I64]),
  pointCase('65 samples', THREE, 9, 64, times(65, (n) => n % 10)),
  pointCase('65,536 samples', EIGHT, 9, 65_535, [...filled(65_530, 9), ...filled(6, -2)]),
  pointCase('65,537 samples, none acceptable', EIGHT, 9, 65_536, filled(65_537, 10), filled(131_072, 3)),
];

// Every position of series shorter than the reach and longer.
const EVERY_POSITION = [
  [plan(5, 3, 2, 2), [9, -1, 2]], [SEVENS, [7, -5]], [plan(2, 1, 0, 2), [1, -9, 0, 9]],
  [plan(0, 3, 1, 3), [1, 0, 0, -1]], [plan(1, 3, 2, 1), [-4, 0, 0, 0, 0, 9]],
].flatMap(([chosen, samples]) => times(samples.length, (n) => (
  pointCase(`position ${n} of ${samples.length}`, chosen, 9, n, samples))));

// The smoothed value of one sample is the sample itself.
const ONE_SAMPLE = [ONE, plan(0, 2, 1, 8), plan(7, 3, 0, 2), SEVENS, WIDEST, FARTHEST].flatMap((chosen) => {
  const bound = Number(largestBound(chosen));
  return [bound, -bound].map((sample) => pointCase('one sample, largest bound', chosen, bound, 0, [sample]));
});

const SEVENS_BOUND = Number(largestBound(SEVENS));

// Quotients: 0, halves, whole numbers, and those that a double can only be near to.
const QUOTIENTS = [
  pointCase('sum 0, first sample negative', EIGHT, 9, 1, [-3, 0, 3]),
  pointCase('sum 0, first sample positive', EIGHT, 9, 1, [3, 0, -3]),
  pointCase('sum 0 of eight passes', LARGE, LARGE_BOUND, 1, [LARGE_BOUND, 0, -LARGE_BOUND]),
  pointCase('negated', EIGHT, 4, 0, [-4, 0, 0]),
  pointCase('a half', plan(0, 2, 1, 1), 9, 0, [1, -1]),
  pointCase('minus a half', plan(0, 2, 1, 1), 9, 1, [1, -1]),
  pointCase('a third', THREE, 9, 0, [0, 1]),
  pointCase('minus two thirds', THREE, 9, 1, [0, -1]),
  pointCase('all at the bound', LARGE, LARGE_BOUND, 3, filled(6, LARGE_BOUND)),
  pointCase('all at minus the bound', SEVENS, SEVENS_BOUND, 3, filled(6, -SEVENS_BOUND)),
  pointCase('all but one at the bound', LARGE, LARGE_BOUND, 3, filled(6, LARGE_BOUND).with(0, 1 - LARGE_BOUND)),
  pointCase('over 7^8', SEVENS, SEVENS_BOUND, 2, [SEVENS_BOUND, -1, 2, -SEVENS_BOUND, SEVENS_BOUND - 1]),
  pointCase('over 11^8', plan(5, 1, 0, 8), 42_019_249, 1, [42_019_249, 42_019_248, -7, 1]),
  pointCase('least above zero', FARTHEST, 1, 400, filled(800, 0).with(16, 1)),
  pointCase('greatest below zero', FARTHEST, 1, 400, filled(800, 0).with(784, -1)),
  pointCase('greatest below one', FARTHEST, 1, 400, filled(800, 1).with(784, 0)),
  pointCase('least above minus one', FARTHEST, 1, 400, filled(800, -1).with(16, 0)),
  pointCase('zero, though one past reach', FARTHEST, 1, 400, filled(800, 0).with(15, 1)),
];

// Samples past the reach do not matter, good or bad, nor does the work. Each two cases have to get the same answer.
const ALIKE = [
  ['reach 1', THREE, 4, [1, 2, 3]], ['reach 2', EIGHT, 4, [1, 2, 3, 4, 5]], ['reach 0', plan(0, 9, 0, 8), 4, [-7]],
  ['reach 2, refused', EIGHT, 4, [1, 2, 10, -10, 5]],
].flatMap(([note, chosen, n, within]) => [[0, 3], [LEAST_I32, -5]].map(([past, work]) => {
  const reach = (within.length - 1) / 2;
  const samples = [...filled(n - reach, past), ...within, ...filled(4 - reach, past)];
  return pointCase(`${note}, ${past} past it`, chosen, 9, n, samples, filled(2 * samples.length, work));
}));

// The first bad sample within reach is told, below which there are bad ones past it.
const FIRST_REFUSED = [
  pointCase('bad on both sides and past reach', EIGHT, 9, 4, [10, 10, 1, 10, 2, -10, 3, 10, 10]),
  pointCase('bad at both ends of the reach', EIGHT, 9, 4, [10, 10, -10, 1, 2, 3, 10, 10, 10]),
  pointCase('bad at the upper end of the reach', EIGHT, 9, 4, [10, 10, 1, 1, 2, 3, LEAST_I32, 10, 10]),
  pointCase('bad at both ends past reach', EIGHT, 9, 4, [10, 10, 9, 1, 2, 3, -9, 10, 10]),
  pointCase('bad at the first point', EIGHT, 9, 0, [10, 1, 1, 1]),
  pointCase('bad at the last point', EIGHT, 9, 3, [1, 1, 1, 10]),
  pointCase('bad after the last within reach', EIGHT, 9, 0, [1, 2, 3, 10]),
  pointCase('bad before the first within reach', EIGHT, 9, 3, [10, 1, 2, 3]),
];

// Those within reach are counted alone, of a point in the middle and at either end. Of 19 the outer two are past it.
const COUNTED = [
  ...oneBadOf(19).map(([note, samples]) => pointCase(note, plan(8, 1, 0, 1), 9, 9, samples)),
  pointCase('all within reach bad, none past it', EIGHT, 9, 4, [0, 0, 10, -10, LEAST_I32, 10, -10, 0, 0]),
  pointCase('all bad', EIGHT, 9, 4, filled(9, 10)),
  pointCase('all bad but the first and the last within reach', EIGHT, 9, 4, [10, 10, 9, 10, 10, 10, -9, 10, 10]),
  pointCase('all bad but the first and the last past reach', EIGHT, 9, 4, [10, 9, -10, 10, 10, 10, -10, 9, 10]),
  pointCase('all bad, at the first', EIGHT, 9, 0, filled(9, -10)),
  pointCase('all bad, at the second', EIGHT, 9, 1, filled(9, -10)),
  pointCase('all bad, at the last', EIGHT, 9, 8, filled(9, -10)),
  pointCase('all bad, reach above length', plan(5, 2, 1, 1), 9, 2, filled(4, 10)),
  pointCase('all bad, reach 0', plan(0, 9, 0, 8), 9, 2, filled(5, 10)),
  pointCase('all bad, and the position', EIGHT, 9, 9, filled(9, 10)),
  pointCase('8,195 samples, all bad', WIDEST, WIDEST_BOUND, 4_097, filled(8_195, 32)),
];

// About the edges of the reach.
const FAR = [
  pointCase('4,096 samples, all within reach', WIDEST, WIDEST_BOUND, 0, filled(4_096, 3).with(4_095, -31)),
  pointCase('4,097 samples, all within reach', WIDEST, WIDEST_BOUND, 4_096, filled(4_097, -3).with(0, 31)),
  pointCase('4,097 samples, last bad', WIDEST, WIDEST_BOUND, 0, filled(4_097, 3).with(4_096, 32)),
  pointCase('4,097 samples, first bad', WIDEST, WIDEST_BOUND, 4_096, filled(4_097, 3).with(0, -32)),
  pointCase('4,098 samples, last bad, past reach', WIDEST, WIDEST_BOUND, 0, filled(4_098, 3).with(4_097, 32)),
  pointCase('4,098 samples, first bad, past reach', WIDEST, WIDEST_BOUND, 4_097, filled(4_098, 3).with(0, LEAST_I32)),
  pointCase('8,195 samples, both ends bad, past reach', WIDEST, WIDEST_BOUND, 4_097,
    [32, ...filled(3_000, 31), ...filled(5_193, -30), LEAST_I32]),
  pointCase('4,094 samples, edge weight 0, last bad, past reach', plan(1023, 1, 0, 4), 512, 0,
    filled(4_094, 511).with(4_093, 513)),
  ...[15, 16, 784, 785].map((n) => pointCase(`800 samples, eight passes, bad ${Math.abs(400 - n)} away`, FARTHEST, 1,
    400, [...filled(390, 1), ...filled(410, -1)].with(n, 2))),
];

const WIDE = WIDE_LIMITS.map((each) => pointCase(each.note, each.plan, each.bound, 1, [1, -1]));

// Stretches of equal samples.
function stretches(below, length, bound) {
  const samples = [];
  while (samples.length < length) samples.push(...filled(6 + below(30), anySamples(below, 1, bound)[0]));
  return samples.slice(0, length);
}

function longPoints() {
  const below = chance(115);
  return LONG_SERIES.map(([note, length, chosen], n) => {
    const bound = Number(largestBound(chosen));
    const position = [0, length - 1, below(length), Math.floor(length / 2)][n % 4];
    return pointCase(`${length} samples, ${note}`, chosen, bound, position, stretches(below, length, bound));
  });
}

function pointFaults() {
  const good = pointCase('', EIGHT, 10, 1, [3, -10, 10, 0]).args;
  return faultCases(4, good, [
    ...SERIES_LIMITS, fault(7, 'no samples', () => ({ samples: [], work: [] })), ...lengthFaults('work'),
    ...POSITION_FAULTS,
    ...SAMPLE_FAULTS,
  ]);
}

function chosenPoint(below, n) {
  const { plan: each, bound, samples, length } = anySeries(below, n);
  return pointCase('chosen', each, bound, below(length), samples, junk(below, 2 * length));
}

function pointCases() {
  const below = chance(104);
  return [
    ...POINT_EDGES, ...EVERY_POSITION, ...ONE_SAMPLE, ...QUOTIENTS, ...ALIKE, ...FIRST_REFUSED, ...COUNTED, ...FAR, ...WIDE,
    ...pointFaults(), ...times(40, (n) => chosenPoint(below, n)), ...longPoints(),
  ];
}

export const casesOfPoints = { 4: pointCases };
