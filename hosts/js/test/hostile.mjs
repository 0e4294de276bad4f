// Arguments that nobody should give, in every place of every call: numbers, lengths and what is no array, each with
// the number or the error that it gets.
import * as dungdapple from '../dungdapple.mjs';
import { KEPT, LONGEST, LONGEST_RECORD, ROOM, ready } from '../memory.mjs';
import { holds, same, tell, throws } from './counting.mjs';
import { CALL_LIST, PLAN, SERIES, answers, changed, results, samples, shown, slicesOf } from './table.mjs';

// Numbers.

const STRANGE_NUMBERS = [
  NaN, Infinity, -Infinity, 0.5, 1.5, 5e-324, 1 - 2 ** -53, 1 + 2 ** -52, -1, -0, -1.5, 2 ** 31, 2 ** 32 + 1,
  2 ** 53, 2 ** 53 + 2, 2 ** 63, 2 ** 64, -(2 ** 53), -(2 ** 63), Number.MAX_VALUE, -Number.MAX_VALUE,
];
const NO_NUMBERS = [
  '1', '', 1n, 0n, null, undefined, true, false, {}, [], [1], () => 1, Symbol('1'), new Number(1), new Date(1),
  { valueOf: () => 1, toString: () => '1' },
  { get valueOf() { throw new Error('asked for its value'); } },
];

// What is a legal number after all: minus zero where 0 is, an edit's value -1, and what a record's field holds.
const ZERO_TOO = [2, 4, 9, 10, 21];

function isLegal(name, number, x) {
  if (name === 'writeRecord' && number <= 5) return Object.is(x, -0) || (number === 5 && x === 2 ** 31);
  return (Object.is(x, -0) && ZERO_TOO.includes(number)) || (x === -1 && number === 10);
}

function numberFacts({ name, args, numbers }) {
  for (const [number, places] of Object.entries(numbers)) {
    for (const path of places) {
      for (const x of [...STRANGE_NUMBERS, ...NO_NUMBERS]) {
        const expected = isLegal(name, Number(number), x) ? 0 : Number(number);
        answers(`${name}, ${path.join('.')} ${shown(x)}`, name, changed(args(), path, x), expected);
      }
    }
  }
}

// The same of a stored series: its plan, its bound, and its edits.
function storedFacts() {
  const { StoredSeries } = dungdapple;
  const series = new StoredSeries(PLAN, 9, samples(6));
  const rows = series.results;
  for (const x of [...STRANGE_NUMBERS, ...NO_NUMBERS]) {
    for (const [number, [path]] of Object.entries(SERIES)) {
      const made = new StoredSeries(...changed([PLAN, 9, samples(6)], path, x));
      const expected = isLegal('StoredSeries', Number(number), x) ? 0 : Number(number);
      same(`StoredSeries, ${path.join('.')} ${shown(x)}`, made.answer, { number: expected, position: 0, bad: 0 });
      same(`StoredSeries, ${path.join('.')} ${shown(x)}: rows`, made.length, expected === 0 ? 6 : 0);
      made.free();
    }
    const refused = (number) => ({ number, position: 0, count: 0, bad: 0, from: 0, to: 0 });
    if (!isLegal('edit', 9, x)) same(`edit, position ${shown(x)}`, series.edit(x, 1), refused(9));
    if (!isLegal('edit', 10, x)) same(`edit, value ${shown(x)}`, series.edit(1, x), refused(10));
  }
  same('rows after edits that were refused', series.results, rows);
  series.free();
}

// What is given in place of a plan, of plans or of sizes.
function objectFacts({ name, args, numbers }) {
  for (const x of [null, undefined, 5, NaN, 'plan', '', 1n, true, Symbol('plan'), {}, [], [1, 2, 1, 1], () => 1]) {
    if (numbers[1]?.[0].length > 1) answers(`${name}, plan ${shown(x)}`, name, changed(args(), [0], x), 1);
    if (numbers[7]) {
      answers(`${name}, sizes ${shown(x)}`, name, changed(args(), [2], x), 7);
      answers(`${name}, across ${shown(x)}`, name, changed(args(), [0, 'across'], x), 1);
      answers(`${name}, down ${shown(x)}`, name, changed(args(), [0, 'down'], x), 1);
    }
  }
}

// Divisor and reach where a number of the plan is 0.
const AT_ZERO = { radius: [4, 1], inner: [0, 0], edge: [6, 1], passes: [0, 0] };

function planFacts() {
  for (const field of Object.keys(PLAN)) {
    for (const x of [...STRANGE_NUMBERS, ...NO_NUMBERS]) {
      const plan = { ...PLAN, [field]: x };
      const expected = Object.is(x, -0) ? AT_ZERO[field] : [0, 0];
      same(`divisor and reach, ${field} ${shown(x)}`, [dungdapple.divisor(plan), dungdapple.reach(plan)], expected);
    }
  }
  for (const x of [null, undefined, 5, 'plan', {}, [1, 2, 1, 1]]) {
    same(`divisor and reach of ${shown(x)}`, [dungdapple.divisor(x), dungdapple.reach(x)], [0, 0]);
  }
  for (const x of [...STRANGE_NUMBERS, ...NO_NUMBERS, 0, 1025]) {
    same(`record of ${shown(x)}`, dungdapple.recordSize(x), 0);
  }
  same('records', [1, 1024].map(dungdapple.recordSize), [31, 4123]);
}

// Lengths.

function resized(slice, length) {
  const other = new slice.constructor(length);
  other.set(slice.subarray(0, length));
  return other;
}

function lengthFacts({ name, args, slices }) {
  for (const [at, { wrong, empty }] of Object.entries(slices)) {
    const given = args()[at];
    for (const [length, number] of [[given.length - 1, wrong], [given.length + 1, wrong], [0, empty]]) {
      answers(`${name}, slice ${at} of ${length}`, name, changed(args(), [at], resized(given, length)), number);
    }
  }
}

// Longer slices than any call takes are refused, by the number that their own length gives, and not copied: behind
// the few cells of the other slices the rooms hold what they held.
const ROOMS = ['samples', 'results', 'doubles', 'bytes'];
const OTHER_CELLS = 64;
const ROOM_PART = 4_096;

function fillRooms() {
  const { u8 } = ready().views;
  ROOMS.forEach((name) => u8.fill(0x5a, ROOM[name], ROOM[name] + ROOM_PART));
}

function roomsFilled() {
  const { u8 } = ready().views;
  const parts = ROOMS.map((name) => u8.subarray(ROOM[name] + OTHER_CELLS, ROOM[name] + ROOM_PART));
  return parts.every((part) => part.every((byte) => byte === 0x5a));
}

function longFacts({ name, args, slices }) {
  for (const [at, { wrong, empty }] of Object.entries(slices)) {
    const { constructor: Kind } = args()[at];
    for (const length of [65_537, 65_538, 1_000_000]) {
      const title = `${name}, slice ${at} of ${length}`;
      const long = new Kind(length).fill(Kind === BigInt64Array ? 3n : 3);
      const bytes = ready().views.u8.length;
      fillRooms();
      answers(title, name, changed(args(), [at], long), empty === 7 ? 7 : wrong);
      holds(`${title}: not copied`, roomsFilled());
      holds(`${title}: memory`, ready().views.u8.length === bytes);
    }
  }
}

// An Array that is too long is not read either.
function longArrayFacts() {
  let reads = 0;
  const long = new Proxy(new Array(1_000_000), {
    get: (target, key) => {
      if (key !== 'length') reads += 1;
      return target[key];
    },
  });
  same('a million elements', dungdapple.smoothSeries(PLAN, 9, long, results(6)).number, 7);
  same('a million elements, in an edit', dungdapple.editSeries(PLAN, 9, 0, 0, long, results(6)).number, 7);
  same('a million elements, read', reads, 0);
}

// Kinds of arrays.

const NO_SLICES = [
  undefined, null, 5, '123', 1n, true, Symbol('slice'), {}, () => 1, { length: 6, 0: 1 }, new ArrayBuffer(48),
  new DataView(new ArrayBuffer(48)), new Int16Array(6), new Uint32Array(6), new Float32Array(6),
  new BigUint64Array(6),
  new Uint8ClampedArray(6), Object.create(Int32Array.prototype), Object.create(BigInt64Array.prototype),
  Object.create(Float64Array.prototype), Object.create(Array.prototype), Object.create(new Int32Array(6)),
  { [Symbol.toStringTag]: 'Int32Array', length: 6 }, { [Symbol.toStringTag]: 'BigInt64Array', length: 6 },
  new Proxy(new Int32Array(6), {}), new Proxy(new BigInt64Array(6), {}), new Proxy(new Float64Array(6), {}),
];

function kindFacts({ name, args, numbers, slices }) {
  let asked = 0;
  const asking = () => new Proxy({}, { get: () => { asked += 1; return 1; } });
  for (const at of Object.keys(slices)) {
    for (const x of NO_SLICES) {
      const given = changed(args(), [at], x);
      if (numbers[1]) given[0] = asking();
      if (numbers[7]) given[2] = asking();
      const before = slicesOf(given);
      const title = `${name}, slice ${at} ${Object.prototype.toString.call(x)}`;
      throws(title, TypeError, 'expected', () => dungdapple[name](...given));
      same(`${name}, slice ${at}: slices`, slicesOf(given), before);
    }
  }
  same(`${name}: asked before its slices were judged`, asked, 0);
}

function wrongKindFacts() {
  const kinds = [Int32Array, Float64Array, BigInt64Array, Uint8Array];
  const takes = {
    samples: ['Int32Array', 'Float64Array'], results: ['BigInt64Array', 'Float64Array'],
    whole: ['Int32Array', 'Float64Array'], quotients: ['Float64Array'], bytes: ['Uint8Array'],
    doubles: ['Float64Array'],
  };
  const runs = {
    samples: (x) => dungdapple.smoothSeries(PLAN, 9, x, results(6)),
    results: (x) => dungdapple.smoothSeries(PLAN, 9, samples(6), x),
    whole: (x) => dungdapple.carrySeries(PLAN, 9, results(6), x),
    quotients: (x) => dungdapple.doublesSeries(PLAN, 9, results(6), x),
    doubles: (x) => dungdapple.doublesIn(9, x, samples(6)),
    bytes: (x) => dungdapple.readRecord(x),
  };
  for (const [name, run] of Object.entries(runs)) {
    for (const Kind of kinds) {
      const title = `${name} as ${Kind.name}`;
      if (takes[name].includes(Kind.name)) same(title, run(new Kind(6)).number, name === 'bytes' ? 14 : 0);
      else throws(title, TypeError, 'expected', () => run(new Kind(6)));
    }
  }
  for (const name of ['results', 'whole', 'quotients', 'bytes']) {
    throws(`${name} as an Array`, TypeError, 'expected', () => runs[name]([1, 2, 3, 4, 5, 6]));
  }
}

// Rooms are apart, and each holds the longest slice that is lent in it.
function roomFacts() {
  const sizes = {
    numbers: 8 * 8, plan: 8 * 4, down: 8 * 4, bytes: LONGEST_RECORD, samples: 4 * LONGEST, results: 8 * LONGEST,
    work: 8 * LONGEST, doubles: 8 * LONGEST,
  };
  const inOrder = Object.entries(ROOM).sort(([, at], [, other]) => at - other);
  same('rooms', Object.keys(ROOM).sort(), Object.keys(sizes).sort());
  inOrder.forEach(([name, at], n) => {
    const end = inOrder[n + 1]?.[1] ?? KEPT;
    holds(`room of ${name}`, at % 16 === 0 && end - at >= sizes[name]);
  });
}

function explainFacts() {
  const known = [...new Array(15).keys(), 21];
  const told = known.map((number) => dungdapple.explain(number));
  same('names', new Set(told.map(({ name }) => name)).size, known.length);
  same('sentences', new Set(told.map(({ sentence }) => sentence)).size, known.length);
  holds('names of numbers', told.every(({ name }) => /^[a-z]+$/.test(name) && name !== 'unknown'));
  same('name of 5', dungdapple.explain(5).name, 'bound');
  for (const x of [15, 20, 22, -1, 0.5, NaN, '5', null, undefined, 5n, {}, 'constructor', '__proto__']) {
    same(`name of ${shown(x)}`, dungdapple.explain(x).name, 'unknown');
  }
}

for (const call of CALL_LIST) {
  same(`${call.name}: answer`, Object.keys(answers(call.name, call.name, call.args(), 0)), call.answer);
  numberFacts(call);
  objectFacts(call);
  lengthFacts(call);
  longFacts(call);
  kindFacts(call);
}
planFacts();
storedFacts();
longArrayFacts();
wrongKindFacts();
roomFacts();
explainFacts();
tell();
