// Jobs for the program `smooth`: bytes that may stand on its standard input, each with a note of its own.
import { JOB, casesOfRecords, changed, recordOf } from './cases-records.mjs';
import { LEAST_I32, MOST_BOUND, chance, filled, times } from './inputs.mjs';
import { MOST_SAMPLES, recordLength } from './record.mjs';

const MOST_BYTES = recordLength(MOST_SAMPLES);
const FIELDS = [1, 2, 1, 1, 9];

function job(note, bytes) {
  return { note, bytes: Uint8Array.from(bytes) };
}

// A record of these fields (radius, inner, edge, passes, bound) and samples.
function record(note, fields, samples) {
  return job(note, recordOf(fields, samples));
}

function noise(length) {
  const below = chance(length);
  return job(`${length} bytes of noise`, times(length, () => below(256)));
}

// Samples of any size within the bound, of both signs.
function varied(count, bound) {
  const below = chance(count);
  return times(count, () => below(2 * bound + 1) - bound);
}

const PAGE = job('the job of the page', JOB);
const FULL = record('1024 samples, 4123 bytes', [3, 5, 2, 3, MOST_BOUND], varied(MOST_SAMPLES, MOST_BOUND));
const FULL_AND_ONE = job('1024 samples and one byte, 4124 bytes', [...FULL.bytes, 0]);
const FULL_NOISE = noise(MOST_BYTES);

// The page's job, spoilt everywhere.

const CUT = times(JOB.length - 1, (n) => job(`the page's job cut to ${n + 1}`, JOB.slice(0, n + 1)));
const FLIPPED = [1, 128].flatMap((bit) => JOB.map((_, at) => (
  job(`the page's job, bit ${bit} of byte ${at}`, changed(JOB, at, (byte) => byte ^ bit)))));

// The reader's cases: good records and bad ones, fields exchanged, missing, twice, of other lengths.
const READ = casesOfRecords[13]().map(({ note, args }) => job(note, args.record));
const RECORDS = READ.filter(({ note }) => note !== PAGE.note);

// Lengths up to the longest record, and beyond it.

function followed(note, { bytes }, length) {
  return job(note, times(length, (n) => bytes[n] ?? n % 256));
}

const LENGTHS = [
  job('empty input', []),
  job('one line end', [10]),
  FULL, FULL_AND_ONE, FULL_NOISE,
  job('1024 samples cut to 4122', FULL.bytes.slice(0, -1)),
  job('1024 samples twice', [...FULL.bytes, ...FULL.bytes]),
  followed('1024 samples, followed up to 70000 bytes', FULL, 70_000),
  followed("the page's job, followed up to 4123 bytes", PAGE, MOST_BYTES),
  followed("the page's job, followed up to 4124 bytes", PAGE, MOST_BYTES + 1),
  followed("the page's job and one byte", PAGE, JOB.length + 1),
  ...[1, 27, 4_095, 4_096, 4_097, 4_122, 4_124, 8_192, 65_536, 65_537, 70_000].map(noise),
  ...[1, 2, 9, 10, 11, 99, 100, 101, 999, 1_000, 1_001, 1_023].map((count) => (
    record(`${count} varied samples`, [2, 3, 1, 2, 1_000], varied(count, 1_000)))),
];

// Plans that are refused, the number first.

const REFUSED_PLANS = [
  record('1: passes 0', [1, 2, 1, 0, 9], [1, 2]),
  record('1: passes 9', [0, 1, 0, 9, 9], [1, 2]),
  record('1: passes 255', [0, 1, 0, 255, 9], [1, 2]),
  record('2: radius 1024', [1_024, 2, 1, 1, 9], [1, 2]),
  record('2: radius 65535', [65_535, 2, 1, 1, 9], [1, 2]),
  record('3: inner 0', [1, 0, 0, 1, 9], [1, 2]),
  record('4: edge as inner', [1, 2, 2, 1, 9], [1, 2]),
  record('4: edge 255', [1, 2, 255, 1, 9], [1, 2]),
  record('5: bound 0', [1, 2, 1, 1, 0], [0, 0]),
  record('5: bound 2^31', [1, 2, 1, 1, 2 ** 31], [1, 2]),
  record('5: bound largest', [1, 2, 1, 1, 2 ** 32 - 1], [1, 2]),
  record('6: bound one above what 8^8 allows', [1, 2, 1, 8, 536_870_912], [1, 2]),
  record('6: bound 1, divisor 99^8', [0, 99, 0, 8, 1], [1, 0]),
  record('6: divisor 2^64', [1, 80, 8, 8, 1], [1, 0]),
  record('6: divisor largest', [1_023, 255, 254, 8, MOST_BOUND], [1, 2]),
  record('1 before 2, 3, 4, 5 and 11', [1_024, 0, 1, 0, 0], [7, 7]),
  record('2 before 3, 4, 5 and 11', [1_024, 0, 1, 1, 0], [7, 7]),
  record('3 before 4, 5 and 11', [1, 0, 1, 1, 0], [7, 7]),
  record('4 before 5 and 11', [1, 1, 1, 1, 0], [7, 7]),
  record('5 before 11', [1, 2, 1, 1, 0], [7, 7]),
  record('6 before 11', [1, 2, 1, 8, 536_870_912], [MOST_BOUND, 7]),
];

// Samples that are refused with 11 and their position, and the largest that are not.

function bad(note, count, ...places) {
  return record(`11: ${note}`, FIELDS, times(count, (n) => (places.includes(n) ? 10 - 20 * (n % 2) : 9)));
}

const SAMPLES = [
  bad('the first sample', 5, 0),
  bad('the middle sample', 5, 2),
  bad('the last sample', 5, 4),
  bad('two samples, the first counts', 5, 1, 3),
  bad('every sample', 3, 0, 1, 2),
  bad('a sample alone', 1, 0),
  ...[9, 10, 99, 100, 999, 1_000, 1_022, 1_023].map((place) => bad(`sample ${place} of 1024`, 1_024, place)),
  record('11: the least sample under the largest bound', [1, 2, 1, 1, MOST_BOUND], [0, LEAST_I32, 0]),
  record('11: sample of size 256 under bound 1', [1, 2, 1, 1, 1], [1, 256]),
  record('the largest samples under the largest bound', [1, 2, 1, 1, MOST_BOUND], [MOST_BOUND, -MOST_BOUND]),
  record('samples as large as the bound', FIELDS, [9, -9, 9, -9]),
];

// Results of every width and both signs, and numbers that are long in the first line.

const TENS = times(9, (n) => 10 ** (n + 1));
const SIZES = [0, 1, ...TENS.flatMap((ten) => [ten - 1, ten]), MOST_BOUND];
const BOTH_SIGNS = SIZES.flatMap((size) => [size, 0 - size]);

const RESULTS = [
  record('results of 1 to 10 digits', [0, 1, 0, 1, MOST_BOUND], BOTH_SIGNS),
  record('results of 7 to 16 digits, powers of ten', [0, 10, 0, 6, MOST_BOUND], BOTH_SIGNS),
  record('results of 7 to 16 digits', [0, 11, 0, 6, MOST_BOUND], BOTH_SIGNS),
  record('the largest result of a series', [341, 3, 0, 2, 2_145_388_031], filled(3, 2_145_388_031)),
  record('the least result of a series', [341, 3, 0, 2, 2_145_388_031], filled(3, -2_145_388_031)),
  record('large results of both signs', [1, 2, 1, 8, 536_870_911], [536_870_911, ...filled(9, -536_870_911)]),
  record('the largest divisor', [0, 98, 0, 8, 1], [1, -1, 0]),
  record('7 samples, 8 passes', [1, 2, 1, 8, 1_000], [1_000, -999, 0, 5, 1, -1_000, 77]),
  record('1 sample, 8 passes', [2, 3, 1, 8, 1], [-1]),
  ...times(8, (n) => record(`passes ${n + 1}`, [1, 2, 1, n + 1, 100], [100, -37, 0, 5])),
  record('radius 1023 over 2 samples', [1_023, 2, 1, 4, 31], [31, -30]),
  record('radius 1023 over 300 samples', [1_023, 255, 254, 1, 31], varied(300, 31)),
  record('results all 0', [1, 2, 1, 3, 9], filled(12, 0)),
  record('samples of every byte', [1, 2, 1, 1, MOST_BOUND], times(64, (n) => (n * 0x04040404 + 0x00010203) | 0)),
];

export const JOBS = [
  PAGE, ...CUT, ...FLIPPED, ...RECORDS, ...LENGTHS, ...REFUSED_PLANS, ...SAMPLES, ...RESULTS,
];

// The few jobs whose bytes are to arrive in many short reads too.
export const JOBS_IN_PIECES = [PAGE, FULL, FULL_AND_ONE, FULL_NOISE];
