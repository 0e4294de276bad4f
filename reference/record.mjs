// The job record, byte by byte: reader, writer, and the report of the program `smooth`.
// A record is a Uint8Array. Fields stand in one order: one-byte tag, two-byte length, value, high byte first.
import { divisorOf } from './smoothing.mjs';
import { smoothSeries } from './calls.mjs';

export const NUMBER_FIELDS = [
  { name: 'radius', tag: 1, bytes: 2 },
  { name: 'inner', tag: 2, bytes: 1 },
  { name: 'edge', tag: 3, bytes: 1 },
  { name: 'passes', tag: 4, bytes: 1 },
  { name: 'bound', tag: 5, bytes: 4 },
];
const SAMPLES_TAG = 6;
const HEAD_BYTES = 3;
const SAMPLE_BYTES = 4;
export const MOST_SAMPLES = 1_024;
const MOST_BYTES = 4_123;

const MALFORMED = {
  number: 14n, radius: 0n, inner: 0n, edge: 0n, passes: 0n, bound: 0n, start: 0n, length: 0n,
};

function wholeNumber(bytes) {
  return bytes.reduce((number, byte) => number * 256n + BigInt(byte), 0n);
}

// The value of the field at `at`, or null unless its tag is this one and all its bytes are there.
function fieldValue(record, at, tag) {
  if (record.length < at + HEAD_BYTES || record[at] !== tag) return null;
  const start = at + HEAD_BYTES;
  const length = record[at + 1] * 256 + record[at + 2];
  return start + length <= record.length ? record.subarray(start, start + length) : null;
}

function holdsSamples(value) {
  const count = value.length / SAMPLE_BYTES;
  return Number.isInteger(count) && count >= 1 && count <= MOST_SAMPLES;
}

// The numbers, and the stretch of the record (start and length) that holds the samples.
export function readRecord({ record }) {
  const answer = { number: 0n };
  let at = 0;
  for (const { name, tag, bytes } of NUMBER_FIELDS) {
    const value = fieldValue(record, at, tag);
    if (value === null || value.length !== bytes) return MALFORMED;
    answer[name] = wholeNumber(value);
    at += HEAD_BYTES + bytes;
  }
  const value = fieldValue(record, at, SAMPLES_TAG);
  if (value === null || !holdsSamples(value)) return MALFORMED;
  if (at + HEAD_BYTES + value.length !== record.length) return MALFORMED;
  return { ...answer, start: BigInt(at + HEAD_BYTES), length: BigInt(value.length) };
}

function bytesOf(number, count) {
  const bytes = [];
  for (let place = count - 1; place >= 0; place--) {
    bytes.push(Number((BigInt(number) >> BigInt(8 * place)) & 255n));
  }
  return bytes;
}

function fieldBytes(tag, value) {
  return [tag, ...bytesOf(value.length, 2), ...value];
}

export function recordLength(count) {
  const numbers = NUMBER_FIELDS.reduce((sum, field) => sum + HEAD_BYTES + field.bytes, 0);
  return numbers + HEAD_BYTES + SAMPLE_BYTES * count;
}

function recordBytes(args) {
  const numbers = NUMBER_FIELDS.flatMap(({ name, tag, bytes }) => fieldBytes(tag, bytesOf(args[name], bytes)));
  const samples = Array.from(args.samples).flatMap((sample) => bytesOf(sample, SAMPLE_BYTES));
  return [...numbers, ...fieldBytes(SAMPLES_TAG, samples)];
}

export function writeRecord(args) {
  const count = args.samples.length;
  if (count < 1 || count > MOST_SAMPLES) return { number: 7n, position: 0n, record: args.record };
  if (args.record.length !== recordLength(count)) return { number: 8n, position: 0n, record: args.record };
  return { number: 0n, position: 0n, record: Uint8Array.from(recordBytes(args)) };
}

// The samples in a stretch of a record.
export function samplesIn(record, start, length) {
  const view = new DataView(record.buffer, record.byteOffset + Number(start), Number(length));
  return Int32Array.from({ length: Number(length) / SAMPLE_BYTES }, (_, n) => view.getInt32(SAMPLE_BYTES * n));
}

function between(bytes, start, count) {
  return Array.from(bytes).filter((_, at) => BigInt(at) >= start && BigInt(at) < start + count);
}

// A stretch of bytes, as much of it as there is, and one of its samples; 0 where there are not its four bytes.
export function stretchAndSample({ record, start, size, index }) {
  const stretch = between(record, start, size);
  const four = between(stretch, 4n * index, 4n);
  const sample = four.length < SAMPLE_BYTES ? 0n : BigInt.asIntN(32, wholeNumber(four));
  return { length: BigInt(stretch.length), sample, stretch };
}

function refusalReport(number, position) {
  return `smooth ${number} ${position} 0\n`;
}

// What the program `smooth` prints for these bytes of standard input.
export function report(record) {
  if (record.length > MOST_BYTES) return refusalReport(14n, 0n);
  const job = readRecord({ record });
  if (job.number !== 0n) return refusalReport(job.number, 0n);

  const plan = { radius: job.radius, inner: job.inner, edge: job.edge, passes: job.passes };
  const samples = samplesIn(record, job.start, job.length);
  const [results, work] = [new BigInt64Array(samples.length), new BigInt64Array(samples.length)];
  const smoothed = smoothSeries({ plan, bound: job.bound, samples, results, work });
  if (smoothed.number !== 0n) return refusalReport(smoothed.number, smoothed.position);

  const first = `smooth 0 ${divisorOf(plan)} ${samples.length}\n`;
  return first + Array.from(smoothed.results, (result, n) => `${n} ${result}\n`).join('');
}
