// Series that stay in the module's memory, samples and results, so that an edit copies nothing.
import { numberOf } from './arguments.mjs';
import { ofSeries, reachOf, rowsWithin, smoothed } from './calls.mjs';
import { lendPlan, resultsAt, samplesAt, wholeAnswered } from './lending.mjs';
import { ROOM, numberAt, ready } from './memory.mjs';
import { SAMPLES, expect, read } from './slices.mjs';

const NO_ROWS = { from: 0, to: 0 };
const PLAN_BYTES = 32;

// What is forgotten without being freed is given back when the collector finds it.
const forgotten = new FinalizationRegistry(({ machine, at, bytes }) => machine.give(at, bytes));

// A block with the results, the plan and the samples of a series that was just smoothed, from their rooms.
function keep(machine, { plans: [plan], numbers: [bound] }, length) {
  const bytes = 12 * length + PLAN_BYTES;
  const distance = reachOf(machine, plan);
  const at = machine.take(bytes);
  const samples = at + 8 * length + PLAN_BYTES;
  machine.views.u8.copyWithin(at, ROOM.results, ROOM.results + 8 * length);
  machine.views.u8.copyWithin(samples, ROOM.samples, ROOM.samples + 4 * length);
  const first = [...lendPlan(machine, plan, at + 8 * length), bound];
  const slices = [samples, BigInt(length), at, BigInt(length)];
  return { place: { machine, at, bytes }, first, slices, samples, results: at, reach: distance };
}

export class StoredSeries {
  #answer;
  #length = 0;
  #kept = null;
  #freed = false;
  #whole = true;

  // Smooths the samples. Where that is refused nothing is kept: the series has no rows, and every edit of it answers
  // the same refusal.
  constructor(plan, bound, samples) {
    expect({ samples: SAMPLES }, { samples });
    const head = ofSeries(plan, bound);
    const given = read(samples);
    const machine = ready();
    this.#answer = smoothed(machine, head, given, given);
    if (this.#answer.number !== 0) return;
    this.#kept = keep(machine, head, given.length);
    this.#length = given.length;
    forgotten.register(this, this.#kept.place, this);
  }

  // The machine that has this series, fit for a call.
  #machine() {
    if (this.#freed) throw new Error('freed: this stored series was given back');
    const machine = ready();
    if (this.#kept !== null && this.#kept.place.machine !== machine) {
      throw new Error('lost: dungdapple was started anew after this series was stored');
    }
    if (!this.#whole) throw new Error('lost: an edit of this stored series was cut off');
    return machine;
  }

  #has(position) {
    return Number.isInteger(position) && position >= 0 && position < this.#length;
  }

  // How the first smoothing ended.
  get answer() {
    return { ...this.#answer };
  }

  get length() {
    return this.#length;
  }

  // Sets a sample. The rows that may have moved are those from `from` to before `to`; none where it was refused or
  // the sample had this value.
  edit(position, value) {
    const [at, to] = [numberOf(position), numberOf(value)];
    const machine = this.#machine();
    if (this.#kept === null) return { ...this.#answer, count: 0, ...NO_ROWS };
    const { first, slices, reach } = this.#kept;
    this.#whole = false;
    const answered = [numberAt(0), numberAt(1), numberAt(2)];
    const number = machine.ask('dungdapple_edit_series', ...first, at, to, ...slices, ...answered);
    this.#whole = true;
    const count = wholeAnswered(machine, 1);
    const rows = count === 0 ? NO_ROWS : rowsWithin(reach, at, this.#length);
    return { number, position: wholeAnswered(machine, 0), count, bad: wholeAnswered(machine, 2), ...rows };
  }

  // One row; undefined where there is none.

  sampleAt(position) {
    const { views } = this.#machine();
    return this.#has(position) ? views.i32[this.#kept.samples / 4 + position] : undefined;
  }

  // Every result is exact as a number: its size is at most the bound times the divisor.
  resultAt(position) {
    const { views } = this.#machine();
    return this.#has(position) ? Number(views.i64[this.#kept.results / 8 + position]) : undefined;
  }

  // All rows, as new arrays: the memory itself moves when it grows, and is not to be written from outside.

  get samples() {
    const machine = this.#machine();
    return this.#kept === null ? new Int32Array(0) : samplesAt(machine, this.#kept.samples, this.#length);
  }

  get results() {
    const machine = this.#machine();
    if (this.#kept === null) return new Float64Array(0);
    return resultsAt(machine, this.#kept.results, this.#length, 'Float64Array');
  }

  get results64() {
    const machine = this.#machine();
    if (this.#kept === null) return new BigInt64Array(0);
    return resultsAt(machine, this.#kept.results, this.#length, 'BigInt64Array');
  }

  // Gives the memory back; a second time does nothing. What is asked of the series afterwards throws.
  free() {
    this.#freed = true;
    if (this.#kept === null) return;
    const { machine, at, bytes } = this.#kept.place;
    forgotten.unregister(this);
    this.#kept = null;
    this.#length = 0;
    machine.give(at, bytes);
  }
}
