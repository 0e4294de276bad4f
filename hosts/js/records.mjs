// Job records: their bytes, and the numbers and samples in them.
import { numberOf, planOf } from './arguments.mjs';
import {
  bytesBack, lendBytes, lendEmptyBytes, lendPlan, lendSamples, samplesAt, takeSamples, wholeAnswered,
} from './lending.mjs';
import { LONGEST_RECORD, ROOM, numberAt, ready } from './memory.mjs';
import { BYTES, SAMPLES, expect, read, tagOf } from './slices.mjs';

const MOST_SAMPLES = 1_024;

// Bytes of a record of so many samples; 0 of a count that no record has.
export function recordSize(count) {
  return Number.isInteger(count) && count >= 1 && count <= MOST_SAMPLES ? 27 + 4 * count : 0;
}

export function readRecord(bytes) {
  expect({ bytes: BYTES }, { bytes });
  const record = read(bytes, LONGEST_RECORD);
  const machine = ready();
  const answered = [0, 1, 2, 3, 4, 5, 6];
  const number = machine.ask('dungdapple_read_record', ...lendBytes(machine, record), ...answered.map(numberAt));
  const [radius, inner, edge, passes, bound, start, size] = answered.map((n) => wholeAnswered(machine, n));
  const count = size / 4;
  machine.call('dungdapple_record_samples', ROOM.bytes + start, BigInt(size), ROOM.samples, BigInt(count));
  const samples = samplesAt(machine, ROOM.samples, count);
  return { number, position: 0, plan: { radius, inner, edge, passes }, bound, samples, start, size };
}

// A record has any 32-bit samples, so its writer tests none. Of doubles it is the module's taking that refuses one
// that is no sample; that is 11, after what the writer itself refuses.
export function writeRecord(plan, bound, samples, bytes) {
  expect({ samples: SAMPLES, bytes: BYTES }, { samples, bytes });
  const [numbers, most] = [planOf(plan), numberOf(bound)];
  const [from, to] = [read(samples), read(bytes, LONGEST_RECORD)];
  const machine = ready();
  const slice = lendSamples(machine, from);
  const taken = tagOf(from) === 'Int32Array' ? 0 : takeSamples(machine, from);
  const [position, bad] = [0, 1].map((n) => wholeAnswered(machine, n));
  const first = [...lendPlan(machine, numbers), most];
  const number = machine.ask('dungdapple_write_record', ...first, ...slice, ...lendEmptyBytes(to));
  if (number === 0 && taken === 11) return { number: taken, position, bad };
  if (number === 0) bytesBack(machine, to);
  return { number, position: 0, bad: 0 };
}
