// Every call of the package with good arguments, and what is answered where one of them is not good.
import * as dungdapple from '../dungdapple.mjs';
import { same } from './counting.mjs';

export const PLAN = { radius: 1, inner: 2, edge: 1, passes: 1 };
export const DOWN = { radius: 0, inner: 3, edge: 1, passes: 1 };
const PLANS = { across: PLAN, down: DOWN };
export const SIZES = { width: 3, height: 2 };

export const samples = (count) => Int32Array.from({ length: count }, (_, n) => (5 * n) % 9 - 4);
export const results = (count) => BigInt64Array.from({ length: count }, (_, n) => BigInt((7 * n) % 11 - 5));
export const record = () => {
  const bytes = new Uint8Array(dungdapple.recordSize(3));
  dungdapple.writeRecord(PLAN, 9, samples(3), bytes);
  return bytes;
};

// Every call: good arguments, its numbers by their paths in those, and its slices by their places, each with what is
// answered where the slice is one short or one long, and where it is empty.

export const SERIES = { 1: [[0, 'passes']], 2: [[0, 'radius']], 3: [[0, 'inner']], 4: [[0, 'edge']], 5: [[1]] };
const PICTURE = {
  1: [[0, 'across', 'passes'], [0, 'down', 'passes']],
  2: [[0, 'across', 'radius'], [0, 'down', 'radius']],
  3: [[0, 'across', 'inner'], [0, 'down', 'inner']],
  4: [[0, 'across', 'edge'], [0, 'down', 'edge']],
  5: [[1]],
  7: [[2, 'width'], [2, 'height']],
};
const [FIRST, OTHER] = [{ wrong: 8, empty: 7 }, { wrong: 8, empty: 8 }];

const CALLS = {
  smoothSeries: {
    args: () => [PLAN, 9, samples(6), results(6)], numbers: SERIES, slices: { 2: FIRST, 3: OTHER },
    answer: ['number', 'position', 'bad'],
  },
  smoothPicture: {
    args: () => [PLANS, 9, SIZES, samples(6), results(6)], numbers: PICTURE, slices: { 3: OTHER, 4: OTHER },
    answer: ['number', 'position', 'bad'],
  },
  editSeries: {
    args: () => [PLAN, 9, 2, 3, samples(6), results(6)], numbers: { ...SERIES, 9: [[2]], 10: [[3]] },
    slices: { 4: FIRST, 5: OTHER }, answer: ['number', 'position', 'count', 'bad'],
  },
  point: {
    args: () => [PLAN, 9, 2, samples(6)], numbers: { ...SERIES, 9: [[2]] }, slices: { 3: { wrong: 0, empty: 7 } },
    answer: ['number', 'position', 'bad', 'value'],
  },
  planFor: {
    args: () => [500, 3, 16], numbers: { 1: [[1]], 3: [[2]], 13: [[0]] }, slices: {},
    answer: ['number', 'position', 'radius', 'edge'],
  },
  doublesIn: {
    args: () => [9, Float64Array.from(samples(6)), samples(6)], numbers: { 5: [[0]] }, slices: { 1: FIRST, 2: OTHER },
    answer: ['number', 'position', 'bad'],
  },
  wholeSeries: {
    args: () => [PLAN, 9, 1, results(6), samples(6)], numbers: { ...SERIES, 21: [[2]] },
    slices: { 3: FIRST, 4: OTHER }, answer: ['number', 'position'],
  },
  wholePicture: {
    args: () => [PLANS, 9, SIZES, 1, results(6), samples(6)], numbers: { ...PICTURE, 21: [[3]] },
    slices: { 4: OTHER, 5: OTHER }, answer: ['number', 'position'],
  },
  carrySeries: {
    args: () => [PLAN, 9, results(6), samples(6)], numbers: SERIES, slices: { 2: FIRST, 3: OTHER },
    answer: ['number', 'position', 'carry'],
  },
  carryPicture: {
    args: () => [PLANS, 9, SIZES, results(6), samples(6)], numbers: PICTURE, slices: { 3: OTHER, 4: OTHER },
    answer: ['number', 'position', 'carry'],
  },
  doublesSeries: {
    args: () => [PLAN, 9, results(6), new Float64Array(6)], numbers: SERIES, slices: { 2: FIRST, 3: OTHER },
    answer: ['number', 'position'],
  },
  doublesPicture: {
    args: () => [PLANS, 9, SIZES, results(6), new Float64Array(6)], numbers: PICTURE, slices: { 3: OTHER, 4: OTHER },
    answer: ['number', 'position'],
  },
  summarySeries: {
    args: () => [PLAN, 9, results(6)], numbers: SERIES, slices: { 2: { wrong: 0, empty: 7 } },
    answer: ['number', 'position', 'lowest', 'highest', 'lowestAt', 'highestAt'],
  },
  summaryPicture: {
    args: () => [PLANS, 9, SIZES, results(6)], numbers: PICTURE, slices: { 3: OTHER },
    answer: ['number', 'position', 'lowest', 'highest', 'lowestAt', 'highestAt'],
  },
  resultsToDoubles: {
    args: () => [results(6), new Float64Array(6)], numbers: {}, slices: { 0: FIRST, 1: OTHER },
    answer: ['number', 'position'],
  },
  doublesToResults: {
    args: () => [Float64Array.from(samples(6)), results(6)], numbers: {}, slices: { 0: FIRST, 1: OTHER },
    answer: ['number', 'position', 'bad'],
  },
  readRecord: {
    args: () => [record()], numbers: {}, slices: { 0: { wrong: 14, empty: 14 } },
    answer: ['number', 'position', 'plan', 'bound', 'samples', 'start', 'size'],
  },
  writeRecord: {
    args: () => [PLAN, 9, samples(3), record().fill(7)], numbers: SERIES, slices: { 2: FIRST, 3: OTHER },
    answer: ['number', 'position', 'bad'],
  },
};

export const CALL_LIST = Object.entries(CALLS).map(([name, call]) => ({ name, ...call }));

const isSlice = (x) => (ArrayBuffer.isView(x) && !(x instanceof DataView)) || Array.isArray(x);
export const slicesOf = (args) => args.filter(isSlice).map((slice) => slice.slice());

// Runs a call that answers this number, other than 11 and 12. Unless it is 0 the call changes no slice, and all else
// that it answers is 0 or empty.
export function answers(title, name, args, number) {
  const before = slicesOf(args);
  const answer = dungdapple[name](...args);
  same(`${title}: number`, answer.number, number);
  if (number === 0) return answer;
  same(`${title}: slices`, slicesOf(args), before);
  const { number: _, plan = {}, samples: stretch = [], ...rest } = answer;
  same(`${title}: the rest`, [...Object.values(plan), ...Object.values(rest)].filter((x) => !Object.is(x, 0)), []);
  same(`${title}: samples`, stretch.length, 0);
  return answer;
}

// Arguments with another value at a path; objects on the way are copied.
export function changed(args, [at, ...rest], value) {
  const copy = Array.isArray(args) ? [...args] : { ...args };
  copy[at] = rest.length === 0 ? value : changed(args[at], rest, value);
  return copy;
}

export const shown = (x) => {
  if (Object.is(x, -0)) return '-0';
  return typeof x === 'object' && x !== null ? 'an object' : String(x);
};
