// How cells come into the rooms of the module's memory, and from there back to the caller.
// What is lent is a pointer and a length, as the module's calls take it.
import { LONGEST, LONGEST_RECORD, ROOM, numberAt } from './memory.mjs';
import { copy, tagOf } from './slices.mjs';

const { isSafeInteger } = Number;

function lent(at, count) {
  return [at, BigInt(count)];
}

// Cells into a room, unless they are more than any call takes.
function put(view, at, slice, most = LONGEST) {
  if (slice.length < most) copy(view, slice, at / view.BYTES_PER_ELEMENT);
  return lent(at, slice.length);
}

// Numbers and plans.

export function lendPlan({ views }, plan, at = ROOM.plan) {
  for (let n = 0; n < plan.length; n += 1) views.f64[at / 8 + n] = plan[n];
  return lent(at, plan.length);
}

export function wholeAnswered({ views }, n) {
  return views.u32[numberAt(n) / 4];
}

export function doubleAnswered({ views }, n) {
  return views.f64[numberAt(n) / 8];
}

// Slices that a call reads.

// Doubles that are no samples, or no results, are marked by the one number that no bound allows. So it is the call
// that refuses them: only among the cells that it tests, by its own position and count, and after every lower
// number.
const LEAST_SAMPLE = -(2 ** 31);
const LEAST_RESULT = -(2n ** 63n);
const MOST_SAMPLE = 2 ** 31 - 1;

function markSamples({ f64, i32 }, count) {
  const [from, to] = [ROOM.doubles / 8, ROOM.samples / 4];
  for (let n = 0; n < count; n += 1) {
    const double = f64[from + n];
    i32[to + n] = (double | 0) === double ? double : LEAST_SAMPLE;
  }
}

function markResults({ f64, i64 }, count) {
  const [from, to] = [ROOM.doubles / 8, ROOM.results / 8];
  for (let n = 0; n < count; n += 1) {
    const double = f64[from + n];
    i64[to + n] = isSafeInteger(double) ? BigInt(double) : LEAST_RESULT;
  }
}

export function lendDoubles({ views }, doubles) {
  return put(views.f64, ROOM.doubles, doubles);
}

export function lendBytes({ views }, bytes) {
  return put(views.u8, ROOM.bytes, bytes, LONGEST_RECORD);
}

// Doubles as samples under the largest bound. Where one is no sample none is written, and the answer is 11.
export function takeSamples(machine, doubles) {
  const [from, to] = [lendDoubles(machine, doubles), lendCells(doubles)];
  return machine.ask('dungdapple_doubles_in', MOST_SAMPLE, ...from, ...to, numberAt(0), numberAt(1));
}

export function lendSamples(machine, samples) {
  if (tagOf(samples) === 'Int32Array') return put(machine.views.i32, ROOM.samples, samples);
  if (takeSamples(machine, samples) === 11) markSamples(machine.views, samples.length);
  return lent(ROOM.samples, samples.length);
}

export function lendResults(machine, results) {
  if (tagOf(results) === 'BigInt64Array') return put(machine.views.i64, ROOM.results, results);
  const [from, to] = [lendDoubles(machine, results), lendEmptyResults(results)];
  const said = machine.ask('dungdapple_doubles_to_results', ...from, ...to, numberAt(0), numberAt(1));
  if (said === 11) markResults(machine.views, results.length);
  return to;
}

// Slices that a call only writes. What a room holds is copied back where the number is 0, and then all of it is
// written.

export function lendCells(cells) {
  return lent(ROOM.samples, cells.length);
}

export function lendQuotients(cells) {
  return lent(ROOM.doubles, cells.length);
}

export function lendEmptyResults(results) {
  return lent(ROOM.results, results.length);
}

export function lendEmptyBytes(bytes) {
  return lent(ROOM.bytes, bytes.length);
}

export function lendWork(samples) {
  return lent(ROOM.work, samples.length);
}

// Slices back.

function back(view, at, slice) {
  const first = at / view.BYTES_PER_ELEMENT;
  copy(slice, view.subarray(first, first + slice.length));
}

export function cellsBack({ views }, cells) {
  back(views.i32, ROOM.samples, cells);
}

export function quotientsBack({ views }, cells) {
  back(views.f64, ROOM.doubles, cells);
}

export function bytesBack({ views }, bytes) {
  back(views.u8, ROOM.bytes, bytes);
}

// Results in memory as doubles in their room. A call that is done leaves none of a size above 2^53 - 1.
function asDoubles(machine, at, count) {
  const slices = [...lent(at, count), ...lent(ROOM.doubles, count)];
  const number = machine.ask('dungdapple_results_to_doubles', ...slices, numberAt(0));
  if (number !== 0) throw new Error(`dungdapple: a result is no exact double (${number})`);
  return machine.views.f64.subarray(ROOM.doubles / 8, ROOM.doubles / 8 + count);
}

// Results in memory as a new array of a kind.
export function resultsAt(machine, at, count, kind) {
  if (kind === 'Float64Array') return asDoubles(machine, at, count).slice();
  return machine.views.i64.slice(at / 8, at / 8 + count);
}

// Those from `from` on, of the kind of a caller's.
export function resultsFrom(machine, results, from, count) {
  return resultsAt(machine, ROOM.results + 8 * from, count, tagOf(results));
}

export function resultsBack(machine, results) {
  if (tagOf(results) === 'BigInt64Array') back(machine.views.i64, ROOM.results, results);
  else copy(results, asDoubles(machine, ROOM.results, results.length));
}

// The sample at a position of their room.
export function sampleIn({ views }, position) {
  return views.i32[ROOM.samples / 4 + position];
}

// Samples in memory as a new array.
export function samplesAt({ views }, at, count) {
  return views.i32.slice(at / 4, at / 4 + count);
}
