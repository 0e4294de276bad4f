// The stream of the driver `calls`: 8-byte words, high byte first, two's complement, and one line of text a call.
// A call is its number and then its arguments; a slice is its length and then its elements; a double is its bits.
import * as calls from './calls.mjs';
import { readRecord, stretchAndSample, writeRecord } from './record.mjs';

const MOST_ELEMENTS = 131_072n;
const MOST_PRINTED = 64;
const CHECKSUM_MODULUS = 2n ** 31n - 1n;

const SERIES = { plan: 'plan', bound: 'u64' };
const PICTURE = { across: 'plan', down: 'plan', bound: 'u64', width: 'u64', height: 'u64' };
const SLICES = { samples: 'i32s', results: 'i64s', work: 'i64s' };
const SUMMARY = ['number', 'position', 'lowest', 'highest', 'indexOfLowest', 'indexOfHighest'];
const FIELDS = { radius: 'u16', inner: 'u8', edge: 'u8', passes: 'u8', bound: 'u32' };

// Every call: what it takes, in order, with its type, and what is printed of its answer and slices, in order.
export const CALLS = {
  1: {
    name: 'smooth-series', run: calls.smoothSeries,
    takes: { ...SERIES, ...SLICES }, prints: ['number', 'position', 'bad', 'results', 'work'],
  },
  2: {
    name: 'smooth-picture', run: calls.smoothPicture,
    takes: { ...PICTURE, ...SLICES }, prints: ['number', 'position', 'bad', 'results', 'work'],
  },
  3: {
    name: 'edit', run: calls.edit,
    takes: { ...SERIES, position: 'u64', value: 'i64', ...SLICES },
    prints: ['number', 'position', 'count', 'bad', 'samples', 'results', 'work'],
  },
  4: {
    name: 'point', run: calls.point,
    takes: { ...SERIES, position: 'u64', samples: 'i32s', work: 'i64s' },
    prints: ['number', 'position', 'bad', 'value', 'work'],
  },
  5: {
    name: 'planner', run: calls.planner,
    takes: { sigma: 'u64', passes: 'u64', inner: 'u64' }, prints: ['number', 'radius', 'edge'],
  },
  6: {
    name: 'doubles-in', run: calls.doublesIn,
    takes: { bound: 'u64', doubles: 'f64s', samples: 'i32s' }, prints: ['number', 'position', 'bad', 'samples'],
  },
  7: {
    name: 'whole-series', run: calls.wholeSeries,
    takes: { ...SERIES, mode: 'u64', results: 'i64s', cells: 'i32s' }, prints: ['number', 'position', 'cells'],
  },
  8: {
    name: 'doubles-series', run: calls.doublesSeries,
    takes: { ...SERIES, results: 'i64s', cells: 'f64s' }, prints: ['number', 'position', 'cells'],
  },
  9: {
    name: 'summary-series', run: calls.summarySeries,
    takes: { ...SERIES, results: 'i64s' }, prints: SUMMARY,
  },
  10: {
    name: 'whole-picture', run: calls.wholePicture,
    takes: { ...PICTURE, mode: 'u64', results: 'i64s', cells: 'i32s' }, prints: ['number', 'position', 'cells'],
  },
  11: {
    name: 'doubles-picture', run: calls.doublesPicture,
    takes: { ...PICTURE, results: 'i64s', cells: 'f64s' }, prints: ['number', 'position', 'cells'],
  },
  12: {
    name: 'summary-picture', run: calls.summaryPicture,
    takes: { ...PICTURE, results: 'i64s' }, prints: SUMMARY,
  },
  13: {
    name: 'read-record', run: readRecord,
    takes: { record: 'u8s' },
    prints: ['number', 'radius', 'inner', 'edge', 'passes', 'bound', 'start', 'length'],
  },
  14: {
    name: 'write-record', run: writeRecord,
    takes: { ...FIELDS, samples: 'i32s', record: 'u8s' }, prints: ['number', 'position', 'record'],
  },
  15: {
    name: 'carry-series', run: calls.carrySeries,
    takes: { ...SERIES, results: 'i64s', cells: 'i32s' }, prints: ['number', 'position', 'carry', 'cells'],
  },
  16: {
    name: 'carry-picture', run: calls.carryPicture,
    takes: { ...PICTURE, results: 'i64s', cells: 'i32s' }, prints: ['number', 'position', 'carry', 'cells'],
  },
  // 17 to 24 are kept for calls to come.
  25: {
    name: 'results-to-doubles', run: calls.resultsToDoubles,
    takes: { results: 'i64s', cells: 'f64s' }, prints: ['number', 'position', 'cells'],
  },
  26: {
    name: 'doubles-to-results', run: calls.doublesToResults,
    takes: { doubles: 'f64s', results: 'i64s' }, prints: ['number', 'position', 'bad', 'results'],
  },
  // Later calls of the page go on from 27, so what else the library has begins here.
  100: {
    name: 'plan', run: calls.planByItself,
    takes: { plan: 'plan' }, prints: ['divisor', 'reach'],
  },
  101: {
    name: 'stretch', run: stretchAndSample,
    takes: { record: 'u8s', start: 'u64', size: 'u64', index: 'u64' }, prints: ['length', 'sample', 'stretch'],
  },
  102: {
    name: 'planner-all', run: calls.plannerOfAll,
    takes: { passes: 'u64', inner: 'u64' }, prints: ['count', 'planned'],
  },
  // Calls 7 and 10 in the form without a mode.
  107: {
    name: 'whole-series-default', run: calls.wholeSeries,
    takes: { ...SERIES, results: 'i64s', cells: 'i32s' }, prints: ['number', 'position', 'cells'],
  },
  110: {
    name: 'whole-picture-default', run: calls.wholePicture,
    takes: { ...PICTURE, results: 'i64s', cells: 'i32s' }, prints: ['number', 'position', 'cells'],
  },
};

// Numbers and slices from words. A word too wide for its type is taken modulo that width.

const NUMBERS = {
  u8: (word) => BigInt.asUintN(8, word),
  u16: (word) => BigInt.asUintN(16, word),
  u32: (word) => BigInt.asUintN(32, word),
  u64: (word) => BigInt.asUintN(64, word),
  i64: (word) => BigInt.asIntN(64, word),
};

const ELEMENTS = {
  u8s: (words) => Uint8Array.from(words, (word) => Number(BigInt.asUintN(8, word))),
  i32s: (words) => Int32Array.from(words, (word) => Number(BigInt.asIntN(32, word))),
  i64s: (words) => BigInt64Array.from(words),
  f64s: (words) => new Float64Array(BigUint64Array.from(words).buffer),
};

const PLAN_FIELDS = ['radius', 'inner', 'edge', 'passes'];

// The words of a call. The arguments are given by name; slices are lists of words, doubles as their bits.
export function callWords(call, args) {
  const words = [BigInt(call)];
  for (const [name, type] of Object.entries(CALLS[call].takes)) {
    if (type === 'plan') {
      for (const field of PLAN_FIELDS) words.push(BigInt(args[name][field]));
    } else if (type in ELEMENTS) {
      words.push(BigInt(args[name].length));
      for (const element of args[name]) words.push(BigInt(element));
    } else {
      words.push(BigInt(args[name]));
    }
  }
  return words;
}

// Why a stream ends within a call: its words are used up, its number is of no call, or a slice is too long, which has
// a line of its own.
class Ending extends Error {
  constructor(lines) {
    super();
    this.lines = lines;
  }
}

// Hands out the words in order.
class Words {
  constructor(words) {
    this.words = words;
    this.at = 0;
  }

  take(count) {
    if (this.at + count > this.words.length) throw new Ending([]);
    this.at += count;
    return this.words.slice(this.at - count, this.at);
  }

  argument(type) {
    if (type === 'plan') return Object.fromEntries(PLAN_FIELDS.map((field) => [field, this.argument('u64')]));
    if (type in NUMBERS) return NUMBERS[type](this.take(1)[0]);
    const length = this.argument('u64');
    if (length > MOST_ELEMENTS) throw new Ending(['stop']);
    return ELEMENTS[type](this.take(Number(length)));
  }

  call() {
    const call = CALLS[this.argument('u64')];
    if (call === undefined) throw new Ending([]);
    const args = Object.entries(call.takes).map(([name, type]) => [name, this.argument(type)]);
    return { call, args: Object.fromEntries(args) };
  }
}

// The line of a call.

export function bitsOf(double) {
  return new BigUint64Array(Float64Array.of(double).buffer)[0];
}

function wholeElements(slice) {
  const elements = slice instanceof Float64Array ? new BigUint64Array(slice.slice().buffer) : slice;
  return Array.from(elements, (element) => BigInt(element));
}

function checksum(elements) {
  const sum = elements.reduce((total, element, index) => total + BigInt(index + 1) * element, 0n);
  return ((sum % CHECKSUM_MODULUS) + CHECKSUM_MODULUS) % CHECKSUM_MODULUS;
}

function sliceParts(slice) {
  const elements = wholeElements(slice);
  return elements.length > MOST_PRINTED ? ['#', elements.length, checksum(elements)] : elements;
}

function printed(value) {
  if (typeof value === 'bigint') return [value];
  if (typeof value === 'number') return [bitsOf(value)];
  return sliceParts(value);
}

export function lineOfOutcome(call, outcome) {
  return call.prints.flatMap((name) => printed(outcome[name])).join(' ');
}

function lineOf({ call, args }) {
  return lineOfOutcome(call, call.run(args));
}

// The one call of these words, and its arguments by name.
export function argumentsOf(words) {
  return new Words(words).call();
}

// The arguments of the one call of these words, by name, and its outcome.
export function decoded(words) {
  const { call, args } = new Words(words).call();
  return { args, outcome: call.run(args) };
}

// The lines for these words. A call that the words break off and a number of no call get no line.
export function linesFor(words) {
  const stream = new Words(words);
  const lines = [];
  try {
    while (stream.at < words.length) lines.push(lineOf(stream.call()));
  } catch (ending) {
    if (!(ending instanceof Ending)) throw ending;
    lines.push(...ending.lines);
  }
  return lines;
}

// Words as bytes, and back.

export function bytesOfWords(words) {
  const view = new DataView(new ArrayBuffer(8 * words.length));
  words.forEach((word, index) => view.setBigUint64(8 * index, BigInt.asUintN(64, word)));
  return new Uint8Array(view.buffer);
}

export function wordsOfBytes(bytes) {
  const view = new DataView(bytes.buffer, bytes.byteOffset, bytes.length);
  return Array.from({ length: Math.floor(bytes.length / 8) }, (_, index) => view.getBigInt64(8 * index));
}
