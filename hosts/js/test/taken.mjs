// What doubles are taken as: the reference's tables, in the place of every number of every call, in both ways. The
// outcome must be the reference's own for the whole number that the table names.
import { DOUBLES_TAKEN, PLANS_TAKEN, RECORDS_WRITTEN, writeRecordIn } from '../../../reference/arguments.mjs';
import { CALLS, lineOfOutcome } from '../../../reference/stream.mjs';
import { readRecord, writeRecord } from '../dungdapple.mjs';
import { holds, same, tell } from './counting.mjs';
import { Room, ask } from './raw.mjs';
import { HOST, KINDS, throughExports } from './ways.mjs';

const PLAN = { radius: 1n, inner: 3n, edge: 1n, passes: 2n };
const DOWN = { radius: 2n, inner: 2n, edge: 0n, passes: 1n };
const BOUND = 300n;
const FIELDS = ['radius', 'inner', 'edge', 'passes'];

// Good arguments of a call, by the types of what it takes.
const NUMBERS = { bound: BOUND, width: 2n, height: 3n, position: 2n, value: -7n, mode: 1n, sigma: 500n };
const LENGTHS = { 3: 2, 4: 2 };

const fill = (Kind, length, make) => Kind.from({ length }, (_, n) => make(n));
const SLICES = {
  i32s: (length) => fill(Int32Array, length, (n) => (n * 41) % 300 - 140),
  i64s: (length) => fill(BigInt64Array, length, (n) => BigInt((n * 97) % 500 - 200)),
  f64s: (length) => fill(Float64Array, length, (n) => (n * 59) % 300 - 100),
};

function goodArguments(number) {
  const args = Object.entries(CALLS[number].takes).map(([name, type]) => {
    if (type === 'plan') return [name, name === 'down' ? DOWN : PLAN];
    if (type in SLICES) return [name, SLICES[type](name === 'work' ? 6 * (LENGTHS[number] ?? 1) : 6)];
    return [name, NUMBERS[name] ?? PLAN[name]];
  });
  return Object.fromEntries(args);
}

// The places of numbers: of a call's own, and of those in its plans.
function placesIn(number) {
  return Object.entries(CALLS[number].takes).flatMap(([name, type]) => {
    if (type === 'plan') return FIELDS.map((field) => [name, field]);
    return type === 'u64' || type === 'i64' ? [[name]] : [];
  });
}

function withNumber(args, [name, field], x) {
  return { ...args, [name]: field === undefined ? x : { ...args[name], [field]: x } };
}

// The outcome's line in each way is the reference's for what is taken.
function compare(title, number, given, taken) {
  const wanted = lineOfOutcome(CALLS[number], CALLS[number].run(taken));
  const raw = lineOfOutcome(CALLS[number], throughExports(number, given));
  holds(`${title}, exports`, raw === wanted, `got ${raw}, wanted ${wanted}`);
  return wanted;
}

const CALLS_OF_NUMBERS = [1, 2, 3, 4, 5, 6, 7, 8, 9, 10, 11, 12, 15, 16, 100, 107, 110];

function doubleFacts(number) {
  const args = goodArguments(number);
  const [good] = compare(`call ${number}`, number, args, args).split(' ');
  holds(`call ${number} is done`, number === 100 ? good !== '0' : good === '0', good);
  for (const place of placesIn(number)) {
    for (const [double, whole, count] of DOUBLES_TAKEN) {
      const title = `call ${number}, ${place.join('.')} ${double}`;
      const given = withNumber(args, place, double);
      const taken = withNumber(args, place, place[0] === 'value' ? whole : count);
      const wanted = compare(title, number, given, taken);
      const host = lineOfOutcome(CALLS[number], HOST[number](KINDS[0], given));
      holds(`${title}, package`, host === wanted, `got ${host}, wanted ${wanted}`);
    }
  }
}

// Plans of any length, through the exports; the package's plans have four numbers.
function planFacts(number) {
  const args = goodArguments(number);
  for (const name of ['plan', 'across', 'down'].filter((each) => each in CALLS[number].takes)) {
    for (const [doubles, numbers] of PLANS_TAKEN) {
      const taken = Object.fromEntries(FIELDS.map((field, n) => [field, numbers[n]]));
      const [given, meant] = [doubles, taken].map((plan) => ({ ...args, [name]: plan }));
      compare(`call ${number}, ${name} (${doubles})`, number, given, meant);
    }
  }
}

// Records: the table's numbers, and the bytes as the reference writes them.
function recordFacts() {
  for (const [note, plan, bound, list, length, number] of RECORDS_WRITTEN) {
    const [samples, record] = [Int32Array.from(list), new Uint8Array(length).fill(170)];
    const wanted = writeRecordIn({ plan, bound, samples, record });
    const room = new Room();
    const [from, to] = [room.slice(samples), room.slice(record)];
    const raw = ask('write_record', ...room.plan(plan).pair, bound, ...from.pair, ...to.pair);
    same(`record, ${note}, exports`, [raw, to.now], [BigInt(number), wanted.record]);
    holds(`record, ${note}: bytes beside the slices`, room.guarded);
    if (plan.length !== FIELDS.length) continue;
    const fields = Object.fromEntries(FIELDS.map((field, n) => [field, plan[n]]));
    const answer = writeRecord(fields, bound, samples, record);
    same(`record, ${note}, package`, [answer, record], [{ number, position: 0, bad: 0 }, wanted.record]);
    const { number: read, plan: back, samples: there } = readRecord(record);
    const plain = Object.fromEntries(Object.entries(fields).map(([field, x]) => [field, x + 0]));
    if (number === 0) same(`record, ${note}, read`, [read, back, there], [0, plain, samples]);
  }
}

CALLS_OF_NUMBERS.forEach(doubleFacts);
CALLS_OF_NUMBERS.forEach(planFacts);
recordFacts();
tell();
