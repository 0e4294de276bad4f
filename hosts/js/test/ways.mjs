// Every call of the reference's stream, run in a host's two ways: through the module's exports, and through the
// functions of the package with arrays of chosen kinds. Each takes the call's arguments by name, whole numbers as
// BigInt or as the doubles that a host gives, and gives the outcome by the names that lines are made of.
import { isDeepStrictEqual } from 'node:util';
import { samplesIn } from '../../../reference/record.mjs';
import { fileName } from '../../../reference/stored.mjs';
import * as dungdapple from '../dungdapple.mjs';
import { holds, same } from './counting.mjs';
import { Room, ask, call } from './raw.mjs';

const MOST_SIGMA = 25_600;
const LEAST_SAMPLE = -(2 ** 31);

const planOf = (plan) => Object.fromEntries(Object.entries(plan).map(([name, x]) => [name, Number(x)]));

// Through the exports. In an outcome, `read` are the slices that are only read.

function lendSeries(room, { plan, bound }) {
  return [...room.plan(plan).pair, Number(bound)];
}

function lendPicture(room, { across, down, bound, width, height }) {
  return [...room.plan(across).pair, ...room.plan(down).pair, ...[bound, width, height].map(Number)];
}

function rawSmooth(name, lendHead) {
  return (room, args) => {
    const [samples, results, work] = [args.samples, args.results, args.work].map((slice) => room.slice(slice));
    const [place, bad] = [room.whole(), room.whole()];
    const slices = [samples, results, work].flatMap(({ pair }) => pair);
    const number = ask(name, ...lendHead(room, args), ...slices, place.at, bad.at);
    return { number, position: place.get(), bad: bad.get(), results: results.now, work: work.now, read: [samples] };
  };
}

// The work that the library's call would be lent is none of a host's: zeros where done, else as it was.
function workAfter(number, { work }) {
  return number === 0n ? new BigInt64Array(work.length) : work;
}

function rawEdit(room, args) {
  const [samples, results] = [args.samples, args.results].map((slice) => room.slice(slice));
  const [place, count, bad] = [room.whole(), room.whole(), room.whole()];
  const first = [...lendSeries(room, args), Number(args.position), Number(args.value)];
  const number = ask('edit_series', ...first, ...samples.pair, ...results.pair, place.at, count.at, bad.at);
  return {
    number, position: place.get(), count: count.get(), bad: bad.get(), samples: samples.now, results: results.now,
    work: workAfter(number, args), read: [],
  };
}

function rawPoint(room, args) {
  const samples = room.slice(args.samples);
  const [value, place, bad] = [room.double(), room.whole(), room.whole()];
  const first = [...lendSeries(room, args), Number(args.position)];
  const number = ask('point', ...first, ...samples.pair, value.at, place.at, bad.at);
  return {
    number, position: place.get(), bad: bad.get(), value: value.get(), work: workAfter(number, args), read: [samples],
  };
}

function rawPlanner(room, { sigma, passes, inner }) {
  const [radius, edge] = [room.whole(), room.whole()];
  const number = ask('plan_for', ...[sigma, passes, inner].map(Number), radius.at, edge.at);
  return { number, radius: radius.get(), edge: edge.get(), read: [] };
}

function rawPlannerOfAll(room, { passes, inner }) {
  const planned = new BigUint64Array(3 * MOST_SIGMA);
  const [radius, edge] = [room.whole(), room.whole()];
  for (let sigma = 1; sigma <= MOST_SIGMA; sigma += 1) {
    const number = ask('plan_for', sigma, Number(passes), Number(inner), radius.at, edge.at);
    planned.set([number, radius.get(), edge.get()], 3 * (sigma - 1));
  }
  return { count: BigInt(MOST_SIGMA), planned, read: [] };
}

// Of slices one of which is read and the other written, with `bad` where the call counts it.
function rawConversion(name, from, to, firstOf, counts = false) {
  return (room, args) => {
    const [source, target] = [room.slice(args[from]), room.slice(args[to])];
    const answered = [room.whole(), ...(counts ? [room.whole()] : [])];
    const first = firstOf(room, args);
    const number = ask(name, ...first, ...source.pair, ...target.pair, ...answered.map(({ at }) => at));
    const [position, bad] = answered.map((each) => each.get());
    return { number, position, bad, [to]: target.now, read: [source] };
  };
}

// A case of a form without a mode means mode 0.
function rawMode(lendHead) {
  return (room, args) => [...lendHead(room, args), Number(args.mode ?? 0n)];
}

function rawCarry(name, lendHead) {
  return (room, args) => {
    const [results, cells] = [room.slice(args.results), room.slice(args.cells)];
    const [place, carry] = [room.whole(), room.double()];
    const number = ask(name, ...lendHead(room, args), ...results.pair, ...cells.pair, place.at, carry.at);
    return { number, position: place.get(), carry: BigInt(carry.get()), cells: cells.now, read: [results] };
  };
}

function rawSummary(name, lendHead) {
  return (room, args) => {
    const results = room.slice(args.results);
    const answered = [room.whole(), room.double(), room.double(), room.whole(), room.whole()];
    const number = ask(name, ...lendHead(room, args), ...results.pair, ...answered.map(({ at }) => at));
    const [position, lowest, highest, indexOfLowest, indexOfHighest] = answered.map((each) => each.get());
    return { number, position, lowest, highest, indexOfLowest, indexOfHighest, read: [results] };
  };
}

function rawReadRecord(room, { record }) {
  const bytes = room.slice(record);
  const answered = Array.from({ length: 7 }, () => room.whole());
  const number = ask('read_record', ...bytes.pair, ...answered.map(({ at }) => at));
  const [radius, inner, edge, passes, bound, start, length] = answered.map((each) => each.get());
  return { number, radius, inner, edge, passes, bound, start, length, read: [bytes] };
}

function rawWriteRecord(room, args) {
  const [samples, bytes] = [room.slice(args.samples), room.slice(args.record)];
  const number = ask('write_record', ...room.plan(args).pair, Number(args.bound), ...samples.pair, ...bytes.pair);
  return { number, position: 0n, record: bytes.now, read: [samples] };
}

function rawPlan(room, { plan }) {
  const lent = room.plan(plan);
  return { divisor: BigInt(call('divisor', ...lent.pair)), reach: ask('reach', ...lent.pair), read: [lent] };
}

// A host cuts the stretch out of the record itself. No more cells are lent than the stretch has samples and a few,
// since every cell past those is 0.
function rawStretch(room, { record, start, size, index }) {
  const end = start + size;
  const [from, to] = [start, end].map((at) => Number(at < BigInt(record.length) ? at : BigInt(record.length)));
  const stretch = room.slice(record.slice(from, to));
  const last = Math.min(Number(index), Math.ceil((to - from) / 4) + 3);
  const samples = room.slice(new Int32Array(last + 1).fill(-7));
  call('record_samples', ...stretch.pair, ...samples.pair);
  return {
    length: BigInt(to - from), sample: BigInt(samples.now[last]), stretch: record.slice(from, to), read: [stretch],
  };
}

export const RAW = {
  1: rawSmooth('smooth_series', lendSeries),
  2: rawSmooth('smooth_picture', lendPicture),
  3: rawEdit,
  4: rawPoint,
  5: rawPlanner,
  6: rawConversion('doubles_in', 'doubles', 'samples', (_, { bound }) => [Number(bound)], true),
  7: rawConversion('whole_series', 'results', 'cells', rawMode(lendSeries)),
  8: rawConversion('doubles_series', 'results', 'cells', lendSeries),
  9: rawSummary('summary_series', lendSeries),
  10: rawConversion('whole_picture', 'results', 'cells', rawMode(lendPicture)),
  11: rawConversion('doubles_picture', 'results', 'cells', lendPicture),
  12: rawSummary('summary_picture', lendPicture),
  13: rawReadRecord,
  14: rawWriteRecord,
  15: rawCarry('carry_series', lendSeries),
  16: rawCarry('carry_picture', lendPicture),
  25: rawConversion('results_to_doubles', 'results', 'cells', () => []),
  26: rawConversion('doubles_to_results', 'doubles', 'results', () => [], true),
  100: rawPlan,
  101: rawStretch,
  102: rawPlannerOfAll,
  107: rawConversion('whole_series', 'results', 'cells', rawMode(lendSeries)),
  110: rawConversion('whole_picture', 'results', 'cells', rawMode(lendPicture)),
};

export function throughExports(number, args) {
  const room = new Room();
  const outcome = RAW[number](room, args);
  holds(`${fileName(number)}: bytes beside the slices`, room.guarded, 'touched');
  const kept = outcome.read.every((lent) => isDeepStrictEqual(lent.now, lent.before));
  holds(`${fileName(number)}: slices only read`, kept, 'changed');
  return outcome;
}

// Through the package. Slices are given as arrays of these kinds, by their names. A call without a function of its
// own there is null.

export const KINDS = [
  { note: 'typed', samples: Int32Array, results: BigInt64Array, cells: Int32Array, doubles: Float64Array },
  { note: 'doubles', samples: Float64Array, results: Float64Array, cells: Float64Array, doubles: Float64Array },
  { note: 'arrays', samples: Array, results: Float64Array, cells: Int32Array, doubles: Array },
];

function arrayOf(Kind, cells) {
  if (Kind === Array) return Array.from(cells);
  if (Kind === cells.constructor || !(cells instanceof BigInt64Array)) return new Kind(cells);
  const doubles = new Kind(cells.length);
  for (let n = 0; n < cells.length; n += 1) doubles[n] = Number(cells[n]);
  return doubles;
}

// The cells of an array of any kind as the case has them. A result of a size that no double has stands as it was
// where the array was not changed there.
function cellsOf(array, given, original) {
  if (array instanceof original.constructor) return array;
  if (!(original instanceof BigInt64Array)) return new original.constructor(array);
  const cells = original.slice();
  for (let n = 0; n < cells.length; n += 1) {
    if (!Object.is(array[n], given[n])) cells[n] = BigInt(array[n]);
  }
  return cells;
}

class Slices {
  constructor(kinds, args, names) {
    this.args = args;
    this.names = names;
    this.given = Object.fromEntries(names.map((name) => (
      [name, arrayOf(kinds[name] ?? args[name].constructor, args[name])])));
    this.before = structuredClone(this.given);
  }

  now(name) {
    return cellsOf(this.given[name], this.before[name], this.args[name]);
  }

  unchanged(names = this.names) {
    return names.every((name) => isDeepStrictEqual(this.given[name], this.before[name]));
  }
}

const big = (numbers) => Object.fromEntries(Object.entries(numbers).map(([name, x]) => [name, BigInt(x)]));
const headOfSeries = ({ plan, bound }) => [planOf(plan), Number(bound)];
const headOfPicture = ({ across, down, bound, width, height }) => [
  { across: planOf(across), down: planOf(down) }, Number(bound), { width: Number(width), height: Number(height) },
];

// Of a call: which slices it takes, in order, which of them it writes, and what is put before them.
function hostCall(name, takes, writes, firstOf) {
  return (kinds, args) => {
    const slices = new Slices(kinds, args, takes);
    const answer = dungdapple[name](...firstOf(args), ...takes.map((slice) => slices.given[slice]));
    const { value, lowest, highest, lowestAt, highestAt, ...wholes } = answer;
    const outcome = {
      ...big(wholes), value, lowest, highest,
      ...(lowestAt === undefined ? {} : { indexOfLowest: BigInt(lowestAt), indexOfHighest: BigInt(highestAt) }),
      ...Object.fromEntries(writes.map((slice) => [slice, slices.now(slice)])),
    };
    if (args.work) outcome.work = workAfter(outcome.number, args);
    const untouched = answer.number === 0 ? takes.filter((slice) => !writes.includes(slice)) : takes;
    holds(`${name}, ${kinds.note}: slices that stay`, slices.unchanged(untouched), 'changed');
    return outcome;
  };
}

function hostReadRecord(kinds, { record }) {
  const bytes = record.slice();
  const { number, position, plan, bound, samples, start, size } = dungdapple.readRecord(bytes);
  same('readRecord: samples', samples, number === 0 ? samplesIn(record, start, size) : new Int32Array(0));
  same('readRecord: position', position, 0);
  same('readRecord: bytes', bytes, record);
  return { ...big({ ...plan, number, bound, start }), length: BigInt(size) };
}

const hostWriter = hostCall('writeRecord', ['samples', 'record'], ['record'],
  ({ radius, inner, edge, passes, bound }) => [planOf({ radius, inner, edge, passes }), Number(bound)]);

// -2^31 is a sample of a record, but no sample of any bound: as a double it is refused with 11.
function hostWriteRecord(kinds, args) {
  const outcome = hostWriter(kinds, args);
  const bad = args.samples.filter((sample) => sample === LEAST_SAMPLE).length;
  if (outcome.number !== 11n || bad === 0 || kinds.samples === Int32Array) return outcome;
  const first = BigInt(args.samples.indexOf(LEAST_SAMPLE));
  same('writeRecord: least sample as a double', [outcome.position, outcome.bad], [first, BigInt(bad)]);
  return hostWriter(KINDS[0], args);
}

function hostPlannerOfAll(kinds, { passes, inner }) {
  const planned = new BigUint64Array(3 * MOST_SIGMA);
  for (let sigma = 1; sigma <= MOST_SIGMA; sigma += 1) {
    const { number, radius, edge } = dungdapple.planFor(sigma, Number(passes), Number(inner));
    planned.set([number, radius, edge].map(BigInt), 3 * (sigma - 1));
  }
  return { count: BigInt(MOST_SIGMA), planned };
}

const hostSmooth = [['samples', 'results'], ['results']];
const hostCells = [['results', 'cells'], ['cells']];
const withMode = (head) => (args) => [...head(args), Number(args.mode ?? 0n)];
const DOUBLE_CELLS = { cells: Float64Array };

function inDoubles(run) {
  return (kinds, args) => run({ ...kinds, ...DOUBLE_CELLS }, args);
}

export const HOST = {
  1: hostCall('smoothSeries', ...hostSmooth, headOfSeries),
  2: hostCall('smoothPicture', ...hostSmooth, headOfPicture),
  3: hostCall('editSeries', ['samples', 'results'], ['samples', 'results'],
    (args) => [...headOfSeries(args), Number(args.position), Number(args.value)]),
  4: hostCall('point', ['samples'], [], (args) => [...headOfSeries(args), Number(args.position)]),
  5: hostCall('planFor', [], [], ({ sigma, passes, inner }) => [sigma, passes, inner].map(Number)),
  6: (kinds, args) => hostCall('doublesIn', ['doubles', 'samples'], ['samples'], ({ bound }) => [Number(bound)])(
    { ...kinds, samples: kinds.cells }, args),
  7: hostCall('wholeSeries', ...hostCells, withMode(headOfSeries)),
  8: inDoubles(hostCall('doublesSeries', ...hostCells, headOfSeries)),
  9: hostCall('summarySeries', ['results'], [], headOfSeries),
  10: hostCall('wholePicture', ...hostCells, withMode(headOfPicture)),
  11: inDoubles(hostCall('doublesPicture', ...hostCells, headOfPicture)),
  12: hostCall('summaryPicture', ['results'], [], headOfPicture),
  13: hostReadRecord,
  14: hostWriteRecord,
  15: hostCall('carrySeries', ...hostCells, headOfSeries),
  16: hostCall('carryPicture', ...hostCells, headOfPicture),
  25: inDoubles(hostCall('resultsToDoubles', ...hostCells, () => [])),
  26: hostCall('doublesToResults', ['doubles', 'results'], ['results'], () => []),
  100: (kinds, { plan }) => big({ divisor: dungdapple.divisor(planOf(plan)), reach: dungdapple.reach(planOf(plan)) }),
  101: null,
  102: hostPlannerOfAll,
};
HOST[107] = HOST[7];
HOST[110] = HOST[10];
