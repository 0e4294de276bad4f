// Cases of call 3: an edit, which asks for one position and for twice as much work.
import { divisorOf, seriesResults } from './smoothing.mjs';
import {
  EIGHT, FARTHEST, LARGE, LARGE_BOUND, LARGE_MOST, LARGEST_I64, LEAST_I32, LEAST_I64, LONG_SERIES, MOST_BOUND, ONE,
  SEVENS, THREE, WIDE_LIMITS, WIDEST, WIDEST_BOUND, WIDEST_MOST,
  anySamples, anySeries, chance, filled, junk, largestBound, plan, times,
} from './inputs.mjs';
import { EMPTY_SERIES, POSITION_FAULTS, SERIES_LIMITS, fault, faultCases, lengthFaults, put } from './faults.mjs';
import { chainCases } from './cases-chains.mjs';

function editCase(note, chosen, bound, [position, value], samples, results, more = {}) {
  const work = filled(2 * samples.length, -7);
  return { note, args: { plan: chosen, bound, position, value, samples, results, work, ...more } };
}

// An edit of a true smoothing.
function trueEdit(note, chosen, bound, change, samples) {
  return editCase(note, chosen, bound, change, samples, seriesResults(chosen, samples));
}

// The driver takes no longer slice, so 65,537 samples cannot come with twice as much work.
const LONGEST_WORK = { work: filled(131_072, 3) };

const TRUE_EDITS = [
  trueEdit('example', THREE, 9, [4, 3], [0, 0, 9, 0, 0]),
  trueEdit('one sample', plan(2, 3, 1, 2), 9, [0, -9], [9]),
  trueEdit('first sample', EIGHT, 9, [0, -9], [9, 1, 2, 3, 4]),
  trueEdit('last sample', EIGHT, 9, [4, -9], [9, 1, 2, 3, 4]),
  trueEdit('identity', ONE, MOST_BOUND, [1, -MOST_BOUND], [1, MOST_BOUND, 3]),
  trueEdit('reach above length, first', plan(5, 3, 2, 2), 9, [0, 4], [9, -1, 2]),
  trueEdit('reach above length, last', plan(5, 3, 2, 2), 9, [2, 4], [9, -1, 2]),
  trueEdit('widest reach', WIDEST, WIDEST_BOUND, [1, -WIDEST_BOUND], [31, 31, -31, 0]),
  trueEdit('reach without edge weight', plan(1, 1, 0, 2), 9, [4, 5], [0, 0, 0, 0, 0, 0, 0, 0, 0]),
  trueEdit('reach with edge weight', plan(1, 2, 1, 2), 9, [4, 5], [0, 0, 0, 0, 0, 0, 0, 0, 0]),
  trueEdit('old equals new', EIGHT, 9, [1, 4], [9, 4, 0]),
  trueEdit('minus the bound to the bound', LARGE, LARGE_BOUND, [1, LARGE_BOUND], filled(3, -LARGE_BOUND)),
  trueEdit('the bound to minus the bound', LARGE, LARGE_BOUND, [2, -LARGE_BOUND], filled(3, LARGE_BOUND)),
];

// Of THREE with bound 10 results may have size 30.
const STORED_EDITS = [
  editCase('no smoothing stored', THREE, 10, [2, 5], [1, 2, 3, 4, 5], [-30, 7, 0, -8, 30]),
  editCase('to 30 exactly', THREE, 10, [1, 5], [0, 0, 0], [25, 25, 25]),
  editCase('to -30 exactly', THREE, 10, [1, -5], [0, 0, 0], [-25, -25, -25]),
  editCase('30 after would be 31', THREE, 10, [1, 1], [0, 0, 0], [29, 30, 29]),
  editCase('-30 after would be -31', THREE, 10, [1, -1], [0, 0, 0], [-29, -29, -30]),
  editCase('31 before would be 30', THREE, 10, [1, -1], [0, 0, 0], [0, 31, 0]),
  editCase('-31 before would be -30', THREE, 10, [1, 1], [0, 0, 0], [0, 0, -31]),
  editCase('after at 0, before at 1', THREE, 10, [1, 1], [0, 0, 0], [30, 31, 0]),
  editCase('before at 0, after at 1', THREE, 10, [1, 1], [0, 0, 0], [31, 30, 0]),
  editCase('after at 2, before at 1', THREE, 10, [1, 1], [0, 0, 0], [0, 31, 30]),
  editCase('old equals new, 31 within reach', THREE, 10, [1, 3], [0, 3, 0], [0, 0, 31]),
  editCase('old equals new, 31 past reach', THREE, 10, [0, 3], [3, 0, 0], [0, 0, 31]),
  editCase('past reach: extremes stay', THREE, 10, [2, -4], [0, 0, 3, 0, 0], [LEAST_I64, 0, 0, 0, LARGEST_I64]),
  editCase('past reach: 2^53 + 1 stays', THREE, 10, [0, -4], [0, 0, 3], [0, 0, 2n ** 53n + 1n]),
  editCase('least 64-bit result within reach', THREE, 10, [1, 4], [0, 0, 3], [0, LEAST_I64, 0]),
  editCase('largest 64-bit result within reach', THREE, 10, [1, 4], [0, 0, 3], [0, 0, LARGEST_I64]),
  editCase('other samples are not tested', THREE, 10, [1, 4], [LEAST_I32, 0, 11], [0, 0, 0]),
  editCase('edge of reach, edge weight 0', plan(1, 2, 0, 1), 1, [2, 1], [0, 0, 0, 0, 0], [7, 0, 0, 0, 7]),
  editCase('edge of reach, edge weight 1', plan(1, 2, 1, 1), 1, [2, 1], [0, 0, 0, 0, 0], [0, 0, 0, 0, 9]),
  editCase('reach 0', plan(0, 2, 0, 3), 1, [1, 1], [0, 0, 0], [LEAST_I64, 0, 9]),
  editCase('work as long as for smoothing', THREE, 10, [0, 4], [1, 2], [3, 4], { work: [5, 6] }),
  editCase('extremes in work', THREE, 10, [0, 4], [1], [3], { work: [LEAST_I64, LARGEST_I64] }),
  editCase('extremes in work, refused by 12', THREE, 10, [0, 4], [1], [31], { work: [LEAST_I64, LARGEST_I64] }),
  editCase('largest product: 1 too many after', LARGE, LARGE_BOUND, [0, 1], [0, 0], [LARGE_MOST, 0]),
  editCase('largest product: 1 too many before', LARGE, LARGE_BOUND, [0, 0], [0, 0], [LARGE_MOST + 1n, 0]),
  editCase('largest product: at it before', LARGE, LARGE_BOUND, [0, -1], [0, 0], [LARGE_MOST, 0]),
  editCase('largest product: gain of twice itself', LARGE, LARGE_BOUND, [0, LARGE_BOUND], [-LARGE_BOUND],
    [LARGE_MOST]),
  editCase('largest product: from end to end', LARGE, LARGE_BOUND, [0, -LARGE_BOUND], [LARGE_BOUND],
    [LARGE_MOST]),
  editCase('65 samples, reach 2', plan(1, 2, 1, 1), 9, [64, -9], times(65, (n) => n % 10), filled(65, 3)),
  editCase('65,536 samples', EIGHT, 9, [65_535, -9], filled(65_536, 9), filled(65_536, 5)),
  editCase('65,537 samples, none acceptable, nor value or results', EIGHT, 9, [65_536, -10], filled(65_537, 10),
    filled(65_537, 99), LONGEST_WORK),
];

// Every position of series shorter than the reach and longer.
const EVERY_POSITION = [
  [EIGHT, [9, 1, 2, 3, 4]], [plan(5, 3, 2, 2), [9, -1, 2]], [SEVENS, [7, -5]], [plan(2, 1, 0, 2), [1, -9, 0, 9]],
].flatMap(([chosen, samples]) => times(samples.length, (p) => (
  trueEdit(`position ${p} of ${samples.length}`, chosen, 10, [p, samples[p] > 0 ? -10 : 10], samples))));

const ONE_SAMPLE = [ONE, plan(0, 2, 1, 8), plan(7, 3, 0, 2), SEVENS, WIDEST, plan(1023, 255, 254, 1)].map((chosen) => {
  const bound = Number(largestBound(chosen));
  return trueEdit('one sample, largest bound', chosen, bound, [0, -bound], [bound]);
});

// The old sample alone is tested for 11, and the new value by itself for 10.
const VALUES = [
  editCase('old sample bad, first', THREE, 10, [0, 4], [11, 0, 0], [0, 0, 0]),
  editCase('old sample bad, last', THREE, 10, [2, 4], [0, 0, -11], [0, 0, 0]),
  editCase('old sample bad, and others', THREE, 10, [1, 4], [99, 11, -99], [0, 0, 0]),
  editCase('all samples bad', THREE, 10, [1, 4], [11, -11, 11], [0, 0, 0]),
  editCase('other samples bad, and a result', THREE, 10, [1, 4], [11, 0, -11], [0, 31, 0]),
  editCase('old sample bad as the new value is', THREE, 10, [1, 11], [0, 11, 0], [0, 0, 0]),
  editCase('all samples bad but the old one', THREE, 10, [1, 4], [LEAST_I32, -10, MOST_BOUND], [0, 0, 0]),
  editCase('from the bound to minus the bound', THREE, 10, [1, -10], [0, 10, 0], [0, 0, 0]),
  editCase('from minus the bound to the bound', THREE, 10, [1, 10], [0, -10, 0], [0, 0, 0]),
  editCase('value 2^31 under the largest bound', ONE, MOST_BOUND, [0, 2 ** 31], [1], [1]),
  editCase('value -2^31 under the largest bound', ONE, MOST_BOUND, [0, LEAST_I32], [1], [1]),
  editCase('old sample -2^31 under the largest bound', ONE, MOST_BOUND, [0, 1], [LEAST_I32], [1]),
  editCase('value 2^32 and the old sample', THREE, 10, [1, 2 ** 32 + 3], [0, 3, 0], [0, 0, 0]),
  editCase('value -2^32 and a good one', THREE, 10, [1, -(2 ** 32) + 3], [0, 2, 0], [0, 0, 0]),
  editCase('old equals new at the bound', THREE, 10, [2, 10], [0, 0, 10], [-30, 30, -30]),
  editCase('old equals new at minus the bound', LARGE, LARGE_BOUND, [0, -LARGE_BOUND], [-LARGE_BOUND, 1],
    [-LARGE_MOST, LARGE_MOST]),
  editCase('old equals new, one sample', THREE, 10, [0, 7], [7], [-4], { work: [LARGEST_I64, LEAST_I64] }),
  editCase('old equals new, -9 at the reach', EIGHT, 1, [4, 1], [0, 0, 0, 0, 1], [0, 0, -9, 0, 0]),
];

// The first result within reach that is, or would be, too large. Below it there are larger ones past the reach.
const FIRST_REFUSED = [
  editCase('first of three within reach', THREE, 10, [2, 1], [0, 0, 0, 0, 0], [99, 31, 31, 31, 99]),
  editCase('last of three within reach', THREE, 10, [2, 1], [0, 0, 0, 0, 0], [99, 0, 0, 31, 99]),
  editCase('last of three only after', THREE, 10, [2, 1], [0, 0, 0, 0, 0], [99, 29, 29, 30, 99]),
  editCase('middle of three only after, downward', THREE, 10, [2, -1], [0, 0, 0, 0, 0], [-99, 30, -30, 30, -99]),
  editCase('from -30 to 30', THREE, 10, [0, 10], [-10], [-30]),
  editCase('-29 would be 31', THREE, 10, [0, 10], [-10], [-29]),
  editCase('largest product: 1 too many below after', LARGE, LARGE_BOUND, [1, -1], [0, 0], [0, -LARGE_MOST]),
  editCase('largest product: 1 too many below before', LARGE, LARGE_BOUND, [1, 1], [0, 0], [0, -LARGE_MOST - 1n]),
  editCase('largest product: from either end inward', LARGE, LARGE_BOUND, [1, 0], [0, 1],
    [LARGE_MOST, 8n ** 8n - LARGE_MOST]),
];

// About the edges of the reach of a plan: extremes past it stay, and a result one too large at it is refused.
const FAR = [
  editCase('4,096 samples, all within reach', WIDEST, WIDEST_BOUND, [0, -31], filled(4_096, 31), filled(4_096, 5)),
  editCase('4,097 samples, all within reach', WIDEST, WIDEST_BOUND, [4_096, 30], filled(4_097, -1), filled(4_097, -5)),
  editCase('4,098 samples, last past reach', WIDEST, WIDEST_BOUND, [0, -31], filled(4_098, 31),
    filled(4_098, 5).with(4_097, LARGEST_I64)),
  editCase('4,098 samples, first past reach', WIDEST, WIDEST_BOUND, [4_097, -30], filled(4_098, 31),
    filled(4_098, 5).with(0, LEAST_I64)),
  editCase('8,195 samples, both ends past reach', WIDEST, WIDEST_BOUND, [4_097, 31], filled(8_195, -31),
    filled(8_195, -7).with(0, LEAST_I64).with(8_194, LARGEST_I64)),
  editCase('4,097 samples, last at reach too large', WIDEST, WIDEST_BOUND, [0, -31], filled(4_097, 31),
    filled(4_097, 5).with(4_096, WIDEST_MOST + 1n)),
  editCase('4,097 samples, first at reach would be too large', WIDEST, WIDEST_BOUND, [4_096, 31], filled(4_097, 30),
    filled(4_097, 5).with(0, WIDEST_MOST)),
  editCase('4,097 samples, first at reach as large as allowed', WIDEST, WIDEST_BOUND, [4_096, 31], filled(4_097, 30),
    filled(4_097, 5).with(0, WIDEST_MOST - 1n)),
  editCase('4,094 samples, edge weight 0, last past reach', plan(1023, 1, 0, 4), 512, [0, -512], filled(4_094, 512),
    filled(4_094, 5).with(4_093, LARGEST_I64)),
  ...[15, 16, 784, 785].map((n) => editCase(`800 samples, eight passes, extreme ${Math.abs(400 - n)} away`, FARTHEST, 1,
    [400, -1], filled(800, 1), filled(800, 5).with(n, LEAST_I64))),
];

const WIDE = WIDE_LIMITS.map((each) => editCase(each.note, each.plan, each.bound, [1, 0], [1, -1], [2, -2]));

// A series of equal samples, whose smoothing is the divisor times one of them. The largest bound of all is the
// checksum's modulus, in which samples of that size would count for nothing.
function longEdits() {
  const below = chance(113);
  return LONG_SERIES.map(([note, length, chosen], n) => {
    const bound = Math.min(Number(largestBound(chosen)), MOST_BOUND - 1);
    const [old] = anySamples(below, 1, bound);
    const position = [0, length - 1, below(length), Math.floor(length / 2)][n % 4];
    return editCase(`${length} samples, ${note}`, chosen, bound, [position, old > 0 ? -bound : bound],
      filled(length, old), filled(length, BigInt(old) * divisorOf(chosen)));
  });
}

function editFaults() {
  const samples = [3, -10, 10, 0];
  const good = editCase('', EIGHT, 10, [2, -4], samples, [1, -2, 3, -40]).args;
  return faultCases(3, good, [
    ...SERIES_LIMITS, EMPTY_SERIES, ...lengthFaults('results'), ...lengthFaults('work'),
    ...POSITION_FAULTS,
    fault(10, 'value above', (args) => ({ value: BigInt(args.bound) + 1n })),
    fault(10, 'value below', (args) => ({ value: -BigInt(args.bound) - 1n })),
    fault(10, 'value largest', () => ({ value: LARGEST_I64 })),
    fault(10, 'value 2^32', () => ({ value: 2 ** 32 })),
    fault(10, 'value least', () => ({ value: LEAST_I64 })),
    fault(11, 'old sample above', put('samples', 2, 11)),
    fault(11, 'old sample below', put('samples', 2, -11)),
    fault(11, 'old sample least', put('samples', 2, LEAST_I32)),
    fault(12, 'result above before', put('results', 3, 81)),
    fault(12, 'result below after', put('results', 2, -80)),
    fault(12, 'result least', put('results', 1, LEAST_I64)),
  ]);
}

function chosenEdit(below, n) {
  const { plan: each, bound, samples, length } = anySeries(below, n);
  const most = bound * Number(divisorOf(each));
  const change = [below(length), anySamples(below, 1, bound)[0]];
  const stored = n % 3 < 2 ? seriesResults(each, samples) : anySamples(below, length, Math.floor(most / 2));
  return editCase('chosen', each, bound, change, samples, stored, { work: junk(below, 2 * length) });
}

function editCases() {
  const below = chance(103);
  return [
    ...TRUE_EDITS, ...STORED_EDITS, ...EVERY_POSITION, ...ONE_SAMPLE, ...VALUES, ...FIRST_REFUSED, ...FAR, ...WIDE,
    ...editFaults(), ...times(40, (n) => chosenEdit(below, n)), ...longEdits(), ...chainCases(),
  ];
}

export const casesOfEdits = { 3: editCases };
