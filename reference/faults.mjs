// Ways to spoil a good call, each with the number it should be refused with, and the cases made of them:
// every fault alone, and two faults of different numbers together, of which the lower number has to win.
// A fault changes arguments: it is a function from the arguments to those that it replaces.
import { applies } from './applies.mjs';
import { callWords, decoded } from './stream.mjs';
import { LARGE, LARGE_BOUND, LARGEST_U64, LEAST_I32, plan, times } from './inputs.mjs';

export function fault(number, note, change) {
  return { number, note, change };
}

function spoilPlan(name, fields) {
  return (args) => ({ [name]: { ...args[name], ...fields } });
}

function planFaults(name) {
  const spoil = (number, note, fields) => fault(number, `${name} ${note}`, spoilPlan(name, fields));
  return [
    spoil(1, 'passes 0', { passes: 0 }),
    spoil(1, 'passes 9', { passes: 9 }),
    spoil(1, 'passes largest', { passes: LARGEST_U64 }),
    spoil(2, 'radius 1024', { radius: 1024 }),
    spoil(2, 'radius largest', { radius: LARGEST_U64 }),
    spoil(3, 'inner 0', { inner: 0, edge: 0 }),
    spoil(3, 'inner 256', { inner: 256 }),
    spoil(3, 'inner largest', { inner: LARGEST_U64 }),
    fault(4, `${name} edge as inner`, (args) => spoilPlan(name, { edge: args[name].inner })(args)),
    spoil(4, 'edge largest', { edge: LARGEST_U64 }),
    spoil(6, 'divisor 2^64', plan(1, 80, 8, 8)),
    spoil(6, 'divisor largest', plan(1023, 255, 254, 8)),
  ];
}

export const BOUND_FAULTS = [
  fault(5, 'bound 0', () => ({ bound: 0 })),
  fault(5, 'bound 2^31', () => ({ bound: 2 ** 31 })),
  fault(5, 'bound largest', () => ({ bound: LARGEST_U64 })),
];

const PRODUCT_FAULT = fault(6, 'bound one above what 8^8 allows', (args) => (
  { [args.plan ? 'plan' : 'across']: LARGE, bound: LARGE_BOUND + 1 }));

export const SERIES_LIMITS = [...planFaults('plan'), ...BOUND_FAULTS, PRODUCT_FAULT];

export const PICTURE_LIMITS = [
  ...planFaults('across'), ...planFaults('down'), ...BOUND_FAULTS, PRODUCT_FAULT,
  fault(6, 'divisors 2^24 each, product 2^64', () => (
    { across: LARGE, down: LARGE, bound: 2 ** 16 })),
  fault(7, 'width 0', () => ({ width: 0 })),
  fault(7, 'height 0', () => ({ height: 0 })),
  fault(7, 'width 4097', () => ({ width: 4097 })),
  fault(7, 'height 4097', () => ({ height: 4097 })),
  fault(7, 'width largest', () => ({ width: LARGEST_U64 })),
  fault(7, 'height largest', () => ({ height: LARGEST_U64 })),
  fault(7, 'sides 2^32, product 2^64', () => ({ width: 2 ** 32, height: 2 ** 32 })),
  fault(7, '65,537 cells and more', () => ({ width: 257, height: 256 })),
  fault(7, '4096 by 17', () => ({ width: 4096, height: 17 })),
];

// Lengths that a slice may wrongly have.
export function lengthFaults(name) {
  const resize = (note, length) => fault(8, `${name} ${note}`, (args) => {
    const slice = args[name];
    return { [name]: times(length(slice.length), (n) => slice[n] ?? 6) };
  });
  return [
    resize('one short', (length) => length - 1),
    resize('one long', (length) => length + 1),
    resize('empty', () => 0),
    resize('twice as long', (length) => 2 * length),
  ];
}

// Puts `value` at `index` of a slice, if the slice is that long.
export function put(name, index, value) {
  return (args) => ({ [name]: args[name].map((element, n) => (n === index ? value : element)) });
}

export const SAMPLE_FAULTS = [
  fault(11, 'first sample above the bound', (args) => put('samples', 0, Number(args.bound) + 1)(args)),
  fault(11, 'last sample below minus the bound', (args) => (
    put('samples', args.samples.length - 1, -Number(args.bound) - 1)(args))),
  fault(11, 'two samples, the first counts', (args) => (
    { samples: args.samples.map((sample, n) => (n === 1 || n === 2 ? LEAST_I32 : sample)) })),
  fault(11, 'least 32-bit sample', put('samples', 2, LEAST_I32)),
];

export const POSITION_FAULTS = [
  fault(9, 'position as length', ({ samples }) => ({ position: samples.length })),
  fault(9, 'position 2^32 + 1', () => ({ position: 2n ** 32n + 1n })),
  fault(9, 'position 2^63', () => ({ position: 2n ** 63n })),
  fault(9, 'position largest', () => ({ position: LARGEST_U64 })),
];

export const EMPTY_SERIES = fault(7, 'no samples', () => ({ samples: [], results: [], work: [] }));

function spoilt(args, faults) {
  return faults.reduce((spoiled, { change }) => ({ ...spoiled, ...change(spoiled) }), args);
}

function pairsOfNumbers(faults) {
  const numbers = [...new Set(faults.map(({ number }) => number))].sort((a, b) => a - b);
  return numbers.flatMap((low, at) => numbers.slice(at + 1).map((high) => [low, high]));
}

// Whether the lower number is answered, and the higher one would be if it were not for that.
function bothApply(call, args, low, high) {
  const read = decoded(callWords(call, args));
  return read.outcome.number === BigInt(low.number) && applies(high.number, read.args);
}

// A fault can undo another: under a larger bound a sample is good again, and an empty series has no bad one. So the
// first two that leave each other are taken, the higher spoiling before the lower, or else after it. Of some numbers
// there are none: no position is past the end and has an old sample.
function togetherCase(call, good, lows, highs) {
  const both = lows.toReversed().flatMap((low) => highs.map((high) => ({ low, high })));
  const ways = [
    ...both.map(({ low, high }) => ({ low, high, args: spoilt(good, [high, low]) })),
    ...both.map(({ low, high }) => ({ low, high, args: spoilt(good, [low, high]) })),
  ];
  const way = ways.find(({ low, high, args }) => bothApply(call, args, low, high));
  if (way === undefined) return [];
  const { low, high, args } = way;
  return [{ note: `${low.number} before ${high.number}: ${low.note}, ${high.note}`, args }];
}

export function faultCases(call, good, faults) {
  const of = (number) => faults.filter((each) => each.number === number);
  const alone = faults.map((each) => ({ note: `${each.number}: ${each.note}`, args: spoilt(good, [each]) }));
  const together = pairsOfNumbers(faults).flatMap(([low, high]) => togetherCase(call, good, of(low), of(high)));
  return [...alone, ...together];
}
