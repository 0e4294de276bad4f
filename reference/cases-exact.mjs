// Cases of calls 25 and 26: results to doubles, each the same number, and back.
import {
  LARGEST_I64, LEAST_I32, LEAST_I64, MOST_BOUND, NEGATIVE_NAN, QUIET_NAN, SIGNALLING_NAN,
  chance, filled, pick, times,
} from './inputs.mjs';
import { DOUBLE_CELLS, bitsOfAll } from './cases-outputs.mjs';
import { fault, faultCases, lengthFaults, put } from './faults.mjs';
import { bitsOf } from './stream.mjs';

// The largest size of a result. Every whole number up to the next one is a double.
const MOST = 2n ** 53n - 1n;

const TOO_LARGE = [
  MOST + 1n, -MOST - 1n, MOST + 2n, -MOST - 2n, MOST + 3n, -MOST - 3n, 2n ** 54n, -(2n ** 54n), 2n ** 62n + 1n,
  LARGEST_I64, LEAST_I64, LEAST_I64 + 1n, LARGEST_I64 - 1023n,
];

// Whole numbers of few and of many bits, about the widths that code might cut them to.
const EACH_RESULT = [
  0, 1, -1, 2, -3, 10, -255, 256, MOST_BOUND, -MOST_BOUND, 2 ** 31, LEAST_I32, LEAST_I32 - 1, 2 ** 32 - 1, 2 ** 32,
  2 ** 32 + 1, -(2 ** 32) - 1, 123_456_789_012_345, -999_999_999_999_999, 0x15555555555555, -0xaaaaaaaaaaaaa,
  2 ** 52 - 1, 2 ** 52, -(2 ** 52) - 1, MOST - 1n, 1n - MOST, MOST, -MOST,
];

// Lists of results that are all good. The same doubles are cases of the call back.
const RESULT_LISTS = [
  ['one after the other', EACH_RESULT],
  ['both ends and zero', [MOST, 0, -MOST]],
  ['mixed', [5, -3, 0, 2 ** 40, -(2 ** 40) - 1, MOST, 1n - MOST, 7]],
  ['all zero', [0, 0, 0, 0]],
  ['every power of 2', times(53, (n) => 2n ** BigInt(n))],
  ['minus every power of 2', times(53, (n) => -(2n ** BigInt(n)))],
  ['one below every power of 2', times(53, (n) => 2n ** BigInt(n + 1) - 1n)],
  ['the 64 largest', times(64, (n) => MOST - BigInt(n))],
  ['65 about zero', times(65, (n) => n - 32)],
  ['65 at minus the largest', filled(65, -MOST)],
  ['65,536 of them', [...filled(40_000, MOST), ...filled(25_535, -9), -MOST]],
];

// All at the ends but one, which stands at each place in turn: code may test several at once.
function oneBadOf(length, ends, bad) {
  return times(length, (n) => (
    [`one bad of ${length}, at ${n}`, times(length, (at) => ends[at % 2]).with(n, bad[n % bad.length])]));
}

// Call 25.

function toDoublesCase(note, results, cells = DOUBLE_CELLS(results.length)) {
  return { note, args: { results, cells } };
}

const LARGE_RESULT_LISTS = [
  ...TOO_LARGE.map((result) => ['alone, too large', [result]]),
  ...oneBadOf(5, [MOST, -MOST], TOO_LARGE),
  ['first of two too large', [0, 1, MOST + 1n, LEAST_I64]],
  ['all too large', [-MOST - 1n, MOST + 1n, LARGEST_I64, LEAST_I64]],
  ['sizes that would cancel each other', [LEAST_I64, LEAST_I64]],
  ['64, the last too large', [...filled(63, -MOST), -MOST - 1n]],
  ['65, the first too large', [LEAST_I64, ...filled(64, MOST)]],
  ['65,536, the last too large', [...filled(65_535, MOST), MOST + 1n]],
];

const NAN_CELLS = [QUIET_NAN, NEGATIVE_NAN, SIGNALLING_NAN];

const TO_DOUBLES_EDGES = [
  toDoublesCase('cells that are not numbers are written', [1, -2, 0], NAN_CELLS),
  toDoublesCase('cells that are not numbers stay when refused', [1, 2, MOST + 1n], NAN_CELLS),
  toDoublesCase('minus zero in cells becomes zero', [0, 0], bitsOfAll([-0, -0])),
  toDoublesCase('minus zero in cells stays when refused', [0, LEAST_I64], bitsOfAll([-0, -0])),
  toDoublesCase('cells hold the doubles already', [4, -4], bitsOfAll([4, -4])),
  toDoublesCase('nothing', []),
  toDoublesCase('no results, one cell', [], NAN_CELLS.slice(0, 1)),
  toDoublesCase('one result, no cells', [3], []),
  toDoublesCase('65 results, 64 cells', filled(65, 3), filled(64, QUIET_NAN)),
  toDoublesCase('64 results, 65 cells', filled(64, 3), filled(65, SIGNALLING_NAN)),
  toDoublesCase('65,537 results', filled(65_537, 3)),
];

// Puts zeros behind the elements of a slice until it is so long.
function grown(name, length) {
  return (args) => ({ [name]: times(length, (n) => args[name][n] ?? 0) });
}

function toDoublesFaults() {
  return faultCases(25, toDoublesCase('', [5, -3, MOST]).args, [
    fault(7, '65,537 results', grown('results', 65_537)),
    fault(7, 'no results', () => ({ results: [] })),
    ...lengthFaults('cells'),
    fault(12, 'first result too large', put('results', 0, MOST + 1n)),
    fault(12, 'last result too large', put('results', 2, -MOST - 1n)),
    fault(12, 'least 64-bit result', put('results', 1, LEAST_I64)),
  ]);
}

// A result of any number of bits.
function anyResult(below) {
  const bits = BigInt(below(54));
  const size = (BigInt(below(2 ** 21)) * 2n ** 32n + BigInt(below(2 ** 32))) >> (53n - bits);
  return below(2) === 0 ? size : -size;
}

function anyWord(below) {
  return BigInt(below(2 ** 32)) * 2n ** 32n + BigInt(below(2 ** 32));
}

function toDoublesCases() {
  const below = chance(225);
  const chosen = times(20, (n) => {
    const results = times(1 + below(9), () => anyResult(below));
    if (n % 4 === 0) results[below(results.length)] = BigInt.asIntN(64, anyWord(below));
    return toDoublesCase('chosen', results, times(results.length, () => anyWord(below)));
  });
  return [
    ...EACH_RESULT.map((result) => toDoublesCase('alone', [result])),
    ...[...RESULT_LISTS, ...LARGE_RESULT_LISTS].map(([note, results]) => toDoublesCase(note, results)),
    ...TO_DOUBLES_EDGES, ...toDoublesFaults(), ...chosen,
  ];
}

// Call 26. Doubles are given as their bits.

const RESULT_CELLS = (length) => times(length, (n) => [7, LEAST_I64, -7, LARGEST_I64][n] ?? 8);

function toResultsCase(note, doubles, results = RESULT_CELLS(doubles.length)) {
  return { note, args: { doubles: bitsOfAll(doubles), results } };
}

function asDoubles(results) {
  return results.map((result) => Number(result));
}

// The neighbour by one of the last place, away from zero or towards it.
function neighbour(double, by) {
  return bitsOf(double) + BigInt(by);
}

const BAD_DOUBLES = [
  Infinity, -Infinity, QUIET_NAN, NEGATIVE_NAN, SIGNALLING_NAN, 0x7fffffffffffffffn, 0xfff0000000000001n,
  0.5, -0.5, 1.5, -2.5, 0.1, 5e-324, -5e-324, 2.2250738585072009e-308, 2.2250738585072014e-308, -1e-300,
  neighbour(1, 1), neighbour(1, -1), neighbour(-1, 1), neighbour(-3, -1), neighbour(2 ** 31, 1),
  neighbour(2 ** 32, -1), neighbour(2 ** 52, -1), neighbour(-(2 ** 51), 1), 2 ** 51 + 0.5, -(2 ** 52) + 0.5,
  2 ** 53, -(2 ** 53), 2 ** 53 + 2, -(2 ** 53) - 2, 2 ** 54, 2 ** 62, 2 ** 63, -(2 ** 63), neighbour(2 ** 63, -1),
  neighbour(-(2 ** 63), 1), 2 ** 64, 2 ** 64 + 4096, -(2 ** 64), 1e300, Number.MAX_VALUE, -Number.MAX_VALUE,
];

const ENDS = asDoubles([MOST, -MOST]);
const EACH_IN_ITS_WAY = [QUIET_NAN, -Infinity, 0.5, 2 ** 53, 5e-324, NEGATIVE_NAN, -(2 ** 63)];

const DOUBLE_LISTS = [
  ...[0, -0, 1, -1, 2 ** 31, -(2 ** 32), ...ENDS].map((double) => ['alone', [double]]),
  ['both zeros', [0, -0, -0, 0]],
  ['neighbours of the whole number 2^52 that are whole', [neighbour(2 ** 52, 1), 2 ** 52, neighbour(-(2 ** 52), 1)]],
  ...BAD_DOUBLES.map((double) => ['alone, bad', [double]]),
  ...oneBadOf(7, ENDS, EACH_IN_ITS_WAY),
  ['two bad, the outer ones', [0.5, 0, 1, -0.5]],
  ['two bad, the inner ones', [0, Infinity, 2 ** 53, -1]],
  ['all bad but the first', [-0, SIGNALLING_NAN, 1.5, 2 ** 63]],
  ['all bad but the last', [-(2 ** 53), QUIET_NAN, 5e-324, ENDS[0]]],
  ['all bad, each in its way', EACH_IN_ITS_WAY],
  ['every other bad', [0.5, 1, -0.5, -0, Infinity, 9, SIGNALLING_NAN]],
  ['64, the last bad', [...filled(63, ENDS[1]), 0.5]],
  ['65, the first bad', [-(2 ** 53), ...filled(64, ENDS[0])]],
  ['65, all bad', filled(65, QUIET_NAN)],
  ['65,536, the last bad', [...filled(65_535, ENDS[0]), 2 ** 53]],
  ['65,536, all bad', filled(65_536, 0.5)],
];

const TO_RESULTS_EDGES = [
  toResultsCase('results stay when refused', [1, 2, 0.5], [LEAST_I64, LARGEST_I64, MOST]),
  toResultsCase('results hold the numbers already', [4, -4], [4, -4]),
  toResultsCase('nothing', []),
  toResultsCase('no doubles, one result', [], [7]),
  toResultsCase('one double, no results', [3], []),
  toResultsCase('all bad, and results short', [0.5, QUIET_NAN], [7]),
  toResultsCase('65 doubles, 64 results', filled(65, 3), filled(64, -7)),
  toResultsCase('64 doubles, 65 results', filled(64, 3), filled(65, -7)),
  toResultsCase('65,537 doubles', filled(65_537, 3)),
];

function toResultsFaults() {
  return faultCases(26, toResultsCase('', [5, -3, ENDS[0]]).args, [
    fault(7, '65,537 doubles', grown('doubles', 65_537)),
    fault(7, 'no doubles', () => ({ doubles: [] })),
    ...lengthFaults('results'),
    fault(11, 'too large', put('doubles', 2, bitsOf(2 ** 53))),
    fault(11, 'not whole', put('doubles', 0, bitsOf(0.25))),
    fault(11, 'not a number', put('doubles', 1, QUIET_NAN)),
    fault(11, 'two bad', ({ doubles }) => ({ doubles: doubles.map((bits, n) => (n === 0 ? bits : SIGNALLING_NAN)) })),
  ]);
}

function toResultsCases() {
  const below = chance(226);
  const chosen = times(20, (n) => {
    const doubles = times(1 + below(9), () => Number(anyResult(below)));
    for (let spoilt = 0; spoilt < n % 4; spoilt++) {
      const near = neighbour(Number(anyResult(below)), 1);
      doubles[below(doubles.length)] = pick(below, [anyWord(below), near, pick(below, BAD_DOUBLES)]);
    }
    const results = times(doubles.length, () => BigInt.asIntN(64, anyWord(below)));
    return toResultsCase('chosen', doubles, results);
  });
  const back = RESULT_LISTS.map(([note, results]) => [`back: ${note}`, asDoubles(results)]);
  return [
    ...[...back, ...DOUBLE_LISTS].map(([note, doubles]) => toResultsCase(note, doubles)),
    ...TO_RESULTS_EDGES, ...toResultsFaults(), ...chosen,
  ];
}

export const casesOfExact = { 25: toDoublesCases, 26: toResultsCases };
