// Arrays that are not what they seem, or that change while a call runs: forged ones, buffers that are taken away,
// resized or shared, getters and elements that call the module again, slices that overlap.
import { runInNewContext } from 'node:vm';
import * as dungdapple from '../dungdapple.mjs';
import { holds, same, tell, throws } from './counting.mjs';
import { CALL_LIST, DOWN, PLAN, SIZES, changed, record, results, samples, shown, slicesOf } from './table.mjs';

// Arrays whose properties lie.

const SMOOTHED = (() => {
  const out = new BigInt64Array(6);
  dungdapple.smoothSeries(PLAN, 9, samples(6), out);
  return out;
})();

function smooths(name, given, out = new BigInt64Array(6)) {
  same(`${name}: answer`, dungdapple.smoothSeries(PLAN, 9, given, out), { number: 0, position: 0, bad: 0 });
  const cells = out.constructor === BigInt64Array ? out : BigInt64Array.from(out, BigInt);
  same(name, Array.from(cells), Array.from(SMOOTHED));
}

function forgedFacts() {
  const lying = {
    length: 1e6, byteLength: 1, byteOffset: 3, buffer: new ArrayBuffer(8), constructor: Object, set: fail,
  };
  for (const [name, value] of Object.entries(lying)) {
    const [from, to] = [samples(6), new BigInt64Array(6)];
    [from, to].forEach((slice) => Object.defineProperty(slice, name, { value }));
    smooths(`own ${name}`, from, to);
  }
  const [from, to] = [samples(6), new BigInt64Array(6)];
  [from, to].forEach((slice) => Object.defineProperty(slice, Symbol.toStringTag, { value: 'Uint8Array' }));
  smooths('own tag', from, to);
  for (const prototype of [null, Array.prototype, {}, Float32Array.prototype]) {
    smooths('another prototype', Object.setPrototypeOf(samples(6), prototype));
  }
  class Mine extends Int32Array {
    get length() { return 2; }
    static get [Symbol.species]() { throw new Error('asked for its species'); }
  }
  smooths('a subclass', new Mine(samples(6)));
  class Ours extends Array {}
  smooths('an Array of a subclass', Ours.from(samples(6)));
  smooths('a frozen Array', Object.freeze(Array.from(samples(6))));
  smooths('a part of a larger buffer', Int32Array.from([9, 9, ...samples(6), 9]).subarray(2, 8));
}

function strangeArrayFacts() {
  const out = new Float64Array(6);
  const answer = (array) => dungdapple.smoothSeries(PLAN, 9, array, out);
  const bad = (position, count) => ({ number: 11, position, bad: count });
  same('elements that are no numbers', answer([0, '1', 1n, null, undefined, 5]), bad(1, 4));
  same('holes', answer([0, , 0, , , 1]), bad(1, 3)); // eslint-disable-line no-sparse-arrays
  same('minus zero', answer([-0, 0, -0, 0, 0, 0]).number, 0);
  same('objects', answer([{}, [], true, Symbol('x'), () => 1, new Number(1)]), bad(0, 6));
  same('fractions and the like', answer([0, 0.5, NaN, Infinity, 2 ** 31, -(2 ** 31)]), bad(1, 5));
  same('out of the bound and no samples', answer([0, 10, 0.5, 9, -10, -(2 ** 31)]), bad(1, 4));
  for (const length of [NaN, -1, -Infinity, '6', null, {}, 0.5]) {
    const proxy = new Proxy([1, 2, 3], { get: (target, key) => (key === 'length' ? length : target[key]) });
    same(`an Array of length ${shown(length)}`, answer(proxy).number, 7);
  }
  const longer = new Proxy([1, 2, 3], { get: (target, key) => (key === 'length' ? 6 : target[key]) });
  same('an Array that is shorter than it says', answer(longer), bad(3, 3));
  const endless = new Proxy([1, 2, 3], { get: (target, key) => (key === 'length' ? Infinity : target[key]) });
  same('an endless Array', answer(endless).number, 7);
  const { proxy, revoke } = Proxy.revocable([], {});
  revoke();
  throws('a revoked Array', TypeError, '', () => answer(proxy));
  const counts = new Map();
  const counting = new Proxy([1, 2, 3, 4, 5, 6], {
    get: (target, key) => {
      counts.set(key, (counts.get(key) ?? 0) + 1);
      return target[key];
    },
  });
  same('an Array that counts', answer(counting).number, 0);
  same('each element is read once', [...counts], [['length', 1], ...[0, 1, 2, 3, 4, 5].map((n) => [`${n}`, 1])]);
}

// Cells that are no samples or no results count only where the call tests them, and after all lower numbers.
function markFacts() {
  const doubles = (list) => Float64Array.from(list);
  for (const kind of [doubles, (list) => list]) {
    same('no sample out of reach of an edit',
      dungdapple.editSeries(PLAN, 9, 0, 1, kind([0, 0, 0, NaN, 0.5, 9]), new Float64Array(6)).number, 0);
    same('no sample replaced',
      dungdapple.editSeries(PLAN, 9, 3, 1, kind([0, 0, 0, NaN, 0.5, 9]), new Float64Array(6)),
      { number: 11, position: 3, count: 0, bad: 1 });
    same('no sample, and a value not allowed',
      dungdapple.editSeries(PLAN, 9, 3, 10, kind([0, 0, 0, NaN, 0.5, 9]), new Float64Array(6)).number, 10);
    same('no sample within reach of a point', dungdapple.point(PLAN, 9, 3, kind([NaN, 0, NaN, 0.5, 10, 1e300])),
      { number: 11, position: 2, bad: 4, value: 0 });
    same('no sample out of reach of a point', dungdapple.point(PLAN, 9, 0, kind([8, 0, 0, NaN, 0.5, 1])).number, 0);
  }
  const kept = doubles([0, 0, 0, 0.5, NaN, 2 ** 53]);
  same('no result within reach', dungdapple.editSeries(PLAN, 9, 3, 1, samples(6), kept),
    { number: 12, position: 3, count: 0, bad: 0 });
  same('no result within reach, and a sample not acceptable',
    dungdapple.editSeries(PLAN, 3, 0, 1, samples(6), doubles([NaN, 0, 0, 0, 0, 0])),
    { number: 11, position: 0, count: 0, bad: 1 });
  const edited = dungdapple.editSeries(PLAN, 9, 0, 1, [0, 0, 0, 0, 0, 0], kept);
  same('no result out of reach', edited, { number: 0, position: 0, count: 3, bad: 0 });
  same('no result out of reach stays', kept, doubles([4 + 0, 3 - 0, 1, 0.5, NaN, 2 ** 53]));
  for (const [name, run] of [
    ['whole', (x) => dungdapple.wholeSeries(PLAN, 9, 2, x, new Int32Array(3))],
    ['carry', (x) => dungdapple.carrySeries(PLAN, 9, x, new Int32Array(3))],
    ['doubles', (x) => dungdapple.doublesSeries(PLAN, 9, x, new Float64Array(3))],
    ['summary', (x) => dungdapple.summarySeries(PLAN, 9, x)],
    ['exact', (x) => dungdapple.resultsToDoubles(x, new Float64Array(3))],
  ]) {
    for (const x of [0.5, NaN, Infinity, -Infinity, 2 ** 53, -(2 ** 63)]) {
      const { number, position } = run(doubles([0, x, NaN]));
      same(`${name} of ${x}`, [number, position], [12, 1]);
    }
  }
  same('results as doubles, the largest', dungdapple.resultsToDoubles(
    BigInt64Array.of(2n ** 53n - 1n, 1n - 2n ** 53n, 2n ** 53n), new Float64Array(3)), { number: 12, position: 2 });
  const bytes = new Uint8Array(dungdapple.recordSize(3));
  same('a record of no samples', dungdapple.writeRecord(PLAN, 9, [1, NaN, -(2 ** 31)], bytes),
    { number: 11, position: 1, bad: 2 });
  same('a record of no samples, and a number that no field holds',
    dungdapple.writeRecord({ ...PLAN, inner: 256 }, 9, [1, NaN, 0.5], bytes), { number: 3, position: 0, bad: 0 });
  same('a refused record', bytes, new Uint8Array(bytes.length));
  dungdapple.writeRecord(PLAN, 9, Int32Array.of(1, -1, -(2 ** 31)), bytes);
  same('the least sample in a record', dungdapple.readRecord(bytes).samples, Int32Array.of(1, -1, -(2 ** 31)));
}

// Buffers.

const detached = (slice) => {
  structuredClone(slice.buffer, { transfer: [slice.buffer] });
  return slice;
};

function bufferFacts() {
  for (const { name, args, slices } of CALL_LIST) {
    for (const [at, { empty }] of Object.entries(slices)) {
      const given = args();
      const gone = detached(given[at].slice());
      same(`${name}, slice ${at} detached`, dungdapple[name](...changed(given, [at], gone)).number, empty);
    }
  }
  const resizable = (bytes) => new ArrayBuffer(bytes, { maxByteLength: 800 });
  const growing = new Int32Array(resizable(24));
  growing.set(samples(6));
  smooths('an array as long as its buffer', growing);
  growing.buffer.resize(20);
  same('its buffer made smaller', dungdapple.smoothSeries(PLAN, 9, growing, results(6)).number, 8);
  growing.buffer.resize(24);
  growing.set(samples(6));
  smooths('its buffer made larger', growing);
  const fixed = new Int32Array(resizable(24), 0, 6);
  fixed.buffer.resize(8);
  same('an array that its buffer holds no more', dungdapple.smoothSeries(PLAN, 9, fixed, results(0)).number, 7);
  const out = new BigInt64Array(resizable(48));
  smooths('results in a resizable buffer', samples(6), out);
  const [from, to] = [new Int32Array(new SharedArrayBuffer(24)), new BigInt64Array(new SharedArrayBuffer(48))];
  from.set(samples(6));
  smooths('shared', from, to);
  const grows = new Int32Array(new SharedArrayBuffer(24, { maxByteLength: 80 }));
  grows.set(samples(6));
  smooths('shared and growable', grows, new Float64Array(new SharedArrayBuffer(48, { maxByteLength: 80 })));
  const list = Array.from(samples(6));
  const row = new Float64Array(new SharedArrayBuffer(48));
  dungdapple.smoothSeries(PLAN, 9, list, row);
  same('an edit of shared results', dungdapple.editSeries(PLAN, 9, 5, 0, list, row).number, 0);
  smoothsLike('an edit of shared results', list, row);
}

function smoothsLike(name, given, row) {
  const fresh = new Float64Array(given.length);
  dungdapple.smoothSeries(PLAN, 9, given, fresh);
  same(name, Array.from(row), Array.from(fresh));
}

// Code of the caller that runs within a call: getters of plans and sizes, elements of an Array.

function callsAgain() {
  dungdapple.smoothSeries(PLAN, 9, new Int32Array(65_536).fill(5), new Float64Array(65_536));
  dungdapple.editSeries(PLAN, 9, 1, 9, new Float64Array(6).fill(3), new Float64Array(6).fill(1));
  dungdapple.readRecord(record());
  new dungdapple.StoredSeries(PLAN, 9, new Int32Array(30_000).fill(2));
}

function meddling(plan, meddle) {
  const reads = [];
  const meddled = {};
  for (const field of Object.keys(plan)) {
    Object.defineProperty(meddled, field, { get: () => { reads.push(field); meddle(field); return plan[field]; } });
  }
  return { meddled, reads };
}

function fail() {
  throw new EvalError('radius');
}

function getterFacts() {
  for (const { name, args, numbers } of CALL_LIST.filter((call) => call.numbers[1]?.[0].length > 1)) {
    const [quiet, loud] = [args(), args()];
    const reads = [];
    if (numbers[7]) {
      const [across, down, sizes] = [PLAN, DOWN, SIZES].map((each) => meddling(each, callsAgain));
      loud[0] = meddling({ across: across.meddled, down: down.meddled }, callsAgain).meddled;
      loud[2] = sizes.meddled;
      reads.push(across, down, sizes);
    } else {
      reads.push(meddling(PLAN, callsAgain));
      loud[0] = reads[0].meddled;
    }
    same(`${name}: with getters that call again`, dungdapple[name](...loud), dungdapple[name](...quiet));
    same(`${name}: slices, with getters that call again`, slicesOf(loud), slicesOf(quiet));
    reads.forEach((each) => same(`${name}: each is read once`, each.reads, [...new Set(each.reads)]));
    const angry = changed(args(), [0], { get radius() { return fail(); }, get across() { return fail(); } });
    const before = slicesOf(angry);
    throws(`${name}: a getter that throws`, EvalError, 'radius', () => dungdapple[name](...angry));
    same(`${name}: slices, with a getter that throws`, slicesOf(angry), before);
  }
  const taken = samples(6);
  const { meddled } = meddling(PLAN, (field) => { if (field === 'passes') detached(taken); });
  same('a getter that detaches the samples', dungdapple.smoothSeries(meddled, 9, taken, results(6)).number, 7);
  const lost = new BigInt64Array(6);
  const other = meddling(PLAN, (field) => { if (field === 'passes') detached(lost); });
  same('a getter that detaches the results', dungdapple.smoothSeries(other.meddled, 9, samples(6), lost).number, 8);
  const shrinks = new Int32Array(new ArrayBuffer(24, { maxByteLength: 48 }));
  const third = meddling(PLAN, () => shrinks.buffer.resize(12));
  same('a getter that resizes', dungdapple.smoothSeries(third.meddled, 9, shrinks, results(3)).number, 0);
}

function elementFacts() {
  const noisy = () => {
    const list = Array.from(samples(6));
    for (let n = 0; n < list.length; n += 1) {
      const value = list[n];
      Object.defineProperty(list, n, { get: () => { callsAgain(); return value; }, set: () => { callsAgain(); } });
    }
    return list;
  };
  smooths('elements that call again', noisy());
  const [quiet, loud] = [new BigInt64Array(SMOOTHED), new BigInt64Array(SMOOTHED)];
  const answer = dungdapple.editSeries(PLAN, 9, 4, 9, samples(6), quiet);
  same('an element that calls again when it is set', dungdapple.editSeries(PLAN, 9, 4, 9, noisy(), loud), answer);
  same('results of it', loud, quiet);
  const lost = new BigInt64Array(6);
  const list = Array.from(samples(6));
  Object.defineProperty(list, 2, { configurable: true, get: () => { if (lost.length) detached(lost); return 0; } });
  same('an element that detaches the results', dungdapple.smoothSeries(PLAN, 9, list, lost).number, 8);
  const grows = new BigInt64Array(new ArrayBuffer(8, { maxByteLength: 48 }));
  Object.defineProperty(list, 2, { get: () => { grows.buffer.resize(48); return 0; } });
  same('an element that makes the results longer', dungdapple.smoothSeries(PLAN, 9, list, grows).number, 0);
  const kept = new BigInt64Array(SMOOTHED);
  throws('an edit of a frozen Array', TypeError, '', () => (
    dungdapple.editSeries(PLAN, 9, 4, 9, Object.freeze(Array.from(samples(6))), kept)));
  same('results of a frozen Array', kept, SMOOTHED);
}

// Slices that overlap. Everything is copied in first; of an edit the sample is copied back first, then the results.
function overlapFacts() {
  const shared = new ArrayBuffer(48);
  const from = new Int32Array(shared, 0, 6);
  from.set(samples(6));
  smooths('samples within their results', from, new BigInt64Array(shared));
  const same8 = Float64Array.from(samples(6));
  smooths('samples that are their results', same8, same8);
  const cells = Float64Array.from(SMOOTHED, Number);
  dungdapple.doublesSeries(PLAN, 9, cells, cells);
  same('results that are their quotients', Array.from(cells), Array.from(SMOOTHED, (x) => Number(x) / 8));
  const both = Float64Array.from([0, 0, 8, 0, 0, 0]);
  same('an edit of samples that are the results', dungdapple.editSeries(PLAN, 9, 2, 3, both, both).number, 0);
  // result 2 is 8 and gains (3 - 8) * 2; results 1 and 3 gain the same, 0 and 4 half of it
  same('results win', Array.from(both), [-5, -10, -2, -10, -5, 0]);
}

// Arrays of another realm, such as an engine gives its procedures.
function realmFacts() {
  const other = (text) => runInNewContext(text);
  smooths('of another realm', other('Int32Array.of(-4, 1, -3, 2, -2, 3)'), other('new BigInt64Array(6)'));
  smooths('an Array of another realm', other('[-4, 1, -3, 2, -2, 3]'), other('new Float64Array(6)'));
  same('the samples of these', Array.from(samples(6)), [-4, 1, -3, 2, -2, 3]);
}

forgedFacts();
strangeArrayFacts();
markFacts();
bufferFacts();
getterFacts();
elementFacts();
overlapFacts();
realmFacts();
tell();
