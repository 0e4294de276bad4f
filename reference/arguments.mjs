// The numbers of a call as a host gives them: all are doubles, and a plan is a list of four. What they are taken as,
// the writer of a record as a host calls it, and tables of both with what is expected, for hosts' tests.
// The expected numbers stand in the tables; none is computed.
import { writeRecord } from './record.mjs';

// What a double that no call accepts is taken as: no limit allows it.
export const UNTAKEN = 2n ** 53n;

// A whole number of size at most 2^53 - 1 is taken as itself, minus zero as 0.
export function wholeOf(double) {
  return Number.isSafeInteger(double) ? BigInt(double) : UNTAKEN;
}

export function countOf(double) {
  return double < 0 ? UNTAKEN : wholeOf(double);
}

export function planIn(doubles) {
  const taken = doubles.length === 4 ? Array.from(doubles, countOf) : new Array(4).fill(UNTAKEN);
  const [radius, inner, edge, passes] = taken;
  return { radius, inner, edge, passes };
}

// The numbers of a record need only fit their fields.
const ROWS = [
  [1, ({ passes }) => passes >= 256n],
  [2, ({ radius }) => radius >= 65_536n],
  [3, ({ inner }) => inner >= 256n],
  [4, ({ edge }) => edge >= 256n],
  [5, ({ bound }) => bound >= 2n ** 32n],
];

export function writeRecordIn({ plan, bound, samples, record }) {
  const fields = { ...planIn(plan), bound: countOf(bound) };
  const [number] = ROWS.find(([, applies]) => applies(fields)) ?? [0];
  return number === 0 ? writeRecord({ ...fields, samples, record }) : { number: BigInt(number), position: 0n, record };
}

// Doubles, each with the whole number and with the count that it is taken as.

function ofBits(bits) {
  return new Float64Array(BigUint64Array.of(bits).buffer)[0];
}

const MOST = 9_007_199_254_740_991;
const NONE = 9_007_199_254_740_992n;

export const DOUBLES_TAKEN = [
  [0, 0n, 0n],
  [-0, 0n, 0n],
  [1, 1n, 1n],
  [-1, -1n, NONE],
  [2, 2n, 2n],
  [-2, -2n, NONE],
  [255, 255n, 255n],
  [256, 256n, 256n],
  [-256, -256n, NONE],
  [65_536, 65_536n, 65_536n],
  [2_147_483_647, 2_147_483_647n, 2_147_483_647n],
  [-2_147_483_648, -2_147_483_648n, NONE],
  [4_294_967_295, 4_294_967_295n, 4_294_967_295n],
  [4_294_967_296, 4_294_967_296n, 4_294_967_296n],
  [4_294_967_297, 4_294_967_297n, 4_294_967_297n],
  [-4_294_967_295, -4_294_967_295n, NONE],
  [4_503_599_627_370_495, 4_503_599_627_370_495n, 4_503_599_627_370_495n],
  [4_503_599_627_370_497, 4_503_599_627_370_497n, 4_503_599_627_370_497n],
  [9_007_199_254_740_990, 9_007_199_254_740_990n, 9_007_199_254_740_990n],
  [MOST, 9_007_199_254_740_991n, 9_007_199_254_740_991n],
  [-MOST, -9_007_199_254_740_991n, NONE],
  [MOST + 1, NONE, NONE],
  [-MOST - 1, NONE, NONE],
  [MOST + 3, NONE, NONE],
  [2 ** 63, NONE, NONE],
  [-(2 ** 63), NONE, NONE],
  [2 ** 64, NONE, NONE],
  [2 ** 64 + 4_096, NONE, NONE],
  [1e300, NONE, NONE],
  [-1e300, NONE, NONE],
  [Number.MAX_VALUE, NONE, NONE],
  [0.5, NONE, NONE],
  [-0.5, NONE, NONE],
  [1.5, NONE, NONE],
  [0.1, NONE, NONE],
  [0.9999999999999999, NONE, NONE],
  [1.0000000000000002, NONE, NONE],
  [-1.0000000000000002, NONE, NONE],
  [255.99999999999997, NONE, NONE],
  [4_503_599_627_370_495.5, NONE, NONE],
  [-4_503_599_627_370_495.5, NONE, NONE],
  [5e-324, NONE, NONE],
  [-5e-324, NONE, NONE],
  [2.2250738585072014e-308, NONE, NONE],
  [Infinity, NONE, NONE],
  [-Infinity, NONE, NONE],
  [ofBits(0x7ff8000000000000n), NONE, NONE],
  [ofBits(0xfff8000000000001n), NONE, NONE],
  [ofBits(0x7ff0000000000001n), NONE, NONE],
];

// Plans, and the radius, inner weight, edge weight and passes that they are taken as.
const NO_PLAN = [NONE, NONE, NONE, NONE];

export const PLANS_TAKEN = [
  [[1, 2, 1, 8], [1n, 2n, 1n, 8n]],
  [[-0, 0, -0, 0], [0n, 0n, 0n, 0n]],
  [[1023, 255, 254, 1], [1023n, 255n, 254n, 1n]],
  [[MOST, MOST, MOST, MOST], [9_007_199_254_740_991n, 9_007_199_254_740_991n, 9_007_199_254_740_991n,
    9_007_199_254_740_991n]],
  [[1.5, 2, 1, 8], [NONE, 2n, 1n, 8n]],
  [[1, -2, 1, 8], [1n, NONE, 1n, 8n]],
  [[1, 2, NaN, 8], [1n, 2n, NONE, 8n]],
  [[1, 2, 1, Infinity], [1n, 2n, 1n, NONE]],
  [[0.5, -1, -Infinity, MOST + 1], NO_PLAN],
  [[], NO_PLAN],
  [[1], NO_PLAN],
  [[1, 2, 1], NO_PLAN],
  [[1, 2, 1, 8, 0], NO_PLAN],
  [[1, 2, 1, 8, 1, 2, 1, 8], NO_PLAN],
];

// Records to write: a note, radius, inner weight, edge weight and passes, the bound, the samples, how many bytes are
// lent, and the number answered. Where it is 0, the numbers stand in the record as they are; else the bytes stay.
const LARGEST = [65_535, 255, 255, 255];
const LARGEST_BOUND = 4_294_967_295;

export const RECORDS_WRITTEN = [
  ['the smallest numbers', [0, 0, 0, 0], 0, [5], 31, 0],
  ['minus zeros', [-0, -0, -0, -0], -0, [5], 31, 0],
  ['an ordinary plan', [1, 2, 1, 8], 9, [9, -9, 0], 39, 0],
  ['the largest numbers', LARGEST, LARGEST_BOUND, [-2_147_483_648, 2_147_483_647], 35, 0],
  ['passes 256', [1, 2, 1, 256], 9, [1, 2], 35, 1],
  ['passes half', [1, 2, 1, 0.5], 9, [1, 2], 35, 1],
  ['a plan of three', [1, 2, 1], 9, [1, 2], 35, 1],
  ['a plan of five', [1, 2, 1, 8, 8], 9, [1, 2], 35, 1],
  ['no plan', [], 9, [1, 2], 35, 1],
  ['radius 65,536', [65_536, 2, 1, 8], 9, [1, 2], 35, 2],
  ['radius -1', [-1, 2, 1, 8], 9, [1, 2], 35, 2],
  ['inner 256', [1, 256, 1, 8], 9, [1, 2], 35, 3],
  ['edge 256', [1, 2, 256, 8], 9, [1, 2], 35, 4],
  ['edge not a number', [1, 2, NaN, 8], 9, [1, 2], 35, 4],
  ['bound 2^32', [1, 2, 1, 8], 4_294_967_296, [1, 2], 35, 5],
  ['bound infinite', [1, 2, 1, 8], Infinity, [1, 2], 35, 5],
  ['bound -1', [1, 2, 1, 8], -1, [1, 2], 35, 5],
  ['no samples', [1, 2, 1, 8], 9, [], 27, 7],
  ['no bytes', [1, 2, 1, 8], 9, [1, 2], 0, 8],
  ['one byte short', [1, 2, 1, 8], 9, [1, 2], 34, 8],
  ['one byte long', [1, 2, 1, 8], 9, [1, 2], 36, 8],
  ['1 before 2', [65_536, 2, 1, 256], 9, [1, 2], 35, 1],
  ['2 before 3', [65_536, 256, 1, 8], 9, [1, 2], 35, 2],
  ['3 before 4', [1, 256, 256, 8], 9, [1, 2], 35, 3],
  ['4 before 5', [1, 2, 256, 8], 4_294_967_296, [1, 2], 35, 4],
  ['5 before 7 and 8', [1, 2, 1, 8], 4_294_967_296, [], 35, 5],
  ['7 before 8', [1, 2, 1, 8], 9, [], 35, 7],
  ['1 before all', [65_536, 256, 256, 256], 4_294_967_296, [], 0, 1],
];
