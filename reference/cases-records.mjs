// Cases of calls 13, 14 and 101: the reader and the writer of the job record, and a stretch of it.
import { LARGEST_U64, LEAST_I32, chance, filled, pick, times } from './inputs.mjs';
import { recordLength, writeRecord } from './record.mjs';

const MOST_I32 = 2 ** 31 - 1;

export function recordOf([radius, inner, edge, passes, bound], samples) {
  const record = new Uint8Array(recordLength(samples.length));
  return Array.from(writeRecord({ radius, inner, edge, passes, bound, samples, record }).record);
}

// Call 13.

function readCase(note, record) {
  return { note, args: { record } };
}

export const JOB = recordOf([1, 2, 1, 1, 8], [8, 0, 0]);
const SMALL = recordOf([0x0102, 3, 4, 5, 0x06070809], [-2]);

// The fields of the small record, to be put together wrongly.
const RADIUS = SMALL.slice(0, 5);
const INNER = SMALL.slice(5, 9);
const EDGE = SMALL.slice(9, 13);
const PASSES = SMALL.slice(13, 17);
const BOUND = SMALL.slice(17, 24);
const SAMPLES = SMALL.slice(24);
const NUMBERS = [...RADIUS, ...INNER, ...EDGE, ...PASSES, ...BOUND];

function samplesField(length, bytes) {
  return [6, Math.floor(length / 256), length % 256, ...filled(bytes, 1)];
}

export function changed(record, at, change) {
  return record.map((byte, n) => (n === at ? change(byte) : byte));
}

const READ_GOOD = [
  readCase('the job of the page', JOB),
  readCase('one sample', SMALL),
  readCase('all bits set', recordOf([65_535, 255, 255, 255, 4_294_967_295], [-1, LEAST_I32, MOST_I32])),
  readCase('all zero', recordOf([0, 0, 0, 0, 0], [0])),
  readCase('1024 samples', recordOf([1, 2, 1, 1, 8], filled(1024, 0))),
  readCase('1023 samples', recordOf([1, 2, 1, 1, 8], filled(1023, -1))),
  readCase('bytes each taken modulo 256', JOB.map((byte, n) => (n % 2 ? byte - 256 : byte + 512))),
  readCase('64 samples, length in both bytes', recordOf([1, 2, 1, 1, 8], filled(64, 0))),
];

const READ_BAD = [
  readCase('1025 samples', [...NUMBERS, ...samplesField(4100, 4100)]),
  readCase('16,383 samples', [...NUMBERS, ...samplesField(65_532, 65_532)]),
  readCase('no samples', [...NUMBERS, ...samplesField(0, 0)]),
  readCase('three bytes of samples', [...NUMBERS, ...samplesField(3, 3)]),
  readCase('five bytes of samples', [...NUMBERS, ...samplesField(5, 5)]),
  readCase('six bytes of samples', [...NUMBERS, ...samplesField(6, 6)]),
  readCase('seven bytes of samples', [...NUMBERS, ...samplesField(7, 7)]),
  readCase('length one sample more than there is', [...NUMBERS, ...samplesField(8, 4)]),
  readCase('length one sample less than there is', [...NUMBERS, ...samplesField(4, 8)]),
  readCase('one trailing byte', [...SMALL, 0]),
  readCase('four trailing bytes', [...SMALL, 0, 0, 0, 0]),
  readCase('samples twice', [...SMALL, ...SAMPLES]),
  readCase('record twice', [...SMALL, ...SMALL]),
  readCase('radius twice', [...RADIUS, ...SMALL]),
  readCase('radius missing', [...INNER, ...EDGE, ...PASSES, ...BOUND, ...SAMPLES]),
  readCase('bound missing', [...RADIUS, ...INNER, ...EDGE, ...PASSES, ...SAMPLES]),
  readCase('inner and edge exchanged', [...RADIUS, ...EDGE, ...INNER, ...PASSES, ...BOUND, ...SAMPLES]),
  readCase('samples first', [...SAMPLES, ...NUMBERS]),
  readCase('bound before passes', [...RADIUS, ...INNER, ...EDGE, ...BOUND, ...PASSES, ...SAMPLES]),
  readCase('radius of one byte', [1, 0, 1, 5, ...SMALL.slice(5)]),
  readCase('radius of three bytes', [1, 0, 3, 0, 1, 2, ...SMALL.slice(5)]),
  readCase('inner of two bytes', [...RADIUS, 2, 0, 2, 0, 3, ...SMALL.slice(9)]),
  readCase('inner of no byte', [...RADIUS, 2, 0, 0, ...SMALL.slice(9)]),
  readCase('bound of two bytes', [...SMALL.slice(0, 17), 5, 0, 2, 8, 9, ...SAMPLES]),
  readCase('tag 7 at the end', [...SMALL, 7, 0, 0]),
  readCase('tag 0 at the start', [0, 0, 0, ...SMALL]),
  readCase('low byte first', [1, 2, 0, ...SMALL.slice(3)]),
];

function readCases() {
  const cut = times(SMALL.length, (length) => readCase(`cut to ${length}`, SMALL.slice(0, length)));
  const up = times(SMALL.length, (at) => readCase(`byte ${at} plus 1`, changed(SMALL, at, (byte) => (byte + 1) % 256)));
  const high = times(27, (at) => readCase(`byte ${at} high bit`, changed(SMALL, at, (byte) => byte ^ 128)));
  return [...READ_GOOD, ...READ_BAD, ...cut, ...up, ...high];
}

// Call 14.

function writeCase(note, [radius, inner, edge, passes, bound], samples, bytes = recordLength(samples.length)) {
  const record = times(bytes, (n) => (n < 64 ? (n * 37 + 200) % 256 : 255));
  return { note, args: { radius, inner, edge, passes, bound, samples, record } };
}

const FIELDS = [1, 2, 1, 1, 8];
const WIDEST = [65_535, 255, 255, 255, 4_294_967_295];

// A refused writer gives the slice back, each byte of it taken modulo 256.
const REFUSED = writeCase('bytes too wide, and refused', FIELDS, [9], 30);
const WIDE_BYTES = { ...REFUSED, args: { ...REFUSED.args, record: times(30, (n) => 250 + n) } };

const WRITE_EDGES = [
  writeCase('the job of the page', FIELDS, [8, 0, 0]),
  writeCase('all zero', [0, 0, 0, 0, 0], [0]),
  writeCase('all bits set', WIDEST, [-1]),
  writeCase('extremes among samples', FIELDS, [LEAST_I32, MOST_I32, -1, 0, 1, 256, -256, 65_536]),
  writeCase('fields that no plan allows', [2000, 0, 9, 77, 0], [1]),
  writeCase('fields one past their widths', [65_536, 256, 256, 256, 4_294_967_296], [1]),
  writeCase('fields two past their widths', [65_537, 257, 257, 257, 4_294_967_297], [1]),
  WIDE_BYTES,
  writeCase('fields largest', filled(5, LARGEST_U64), [1]),
  writeCase('64 samples', FIELDS, times(64, (n) => n)),
  writeCase('1024 samples', WIDEST, filled(1024, -5)),
  writeCase('1025 samples, record as long', FIELDS, filled(1025, -5)),
  writeCase('1025 samples, record as for 1024', FIELDS, filled(1025, -5), 4123),
  writeCase('no samples, record as long', FIELDS, []),
  writeCase('no samples, no record', FIELDS, [], 0),
  writeCase('no samples, record as for one', FIELDS, [], 31),
  writeCase('65,537 samples, no record', FIELDS, filled(65_537, 0), 0),
  ...[0, 1, 26, 27, 30, 32, 34, 35, 36, 62].map((bytes) => writeCase(`one sample, ${bytes} bytes`, FIELDS, [9], bytes)),
  ...[31, 34, 36, 39].map((bytes) => writeCase(`two samples, ${bytes} bytes`, FIELDS, [9, -9], bytes)),
  writeCase('1024 samples, 4122 bytes', FIELDS, filled(1024, 1), 4122),
  writeCase('1024 samples, 4124 bytes', FIELDS, filled(1024, 1), 4124),
];

function writeCases() {
  const below = chance(314);
  const chosen = times(30, () => {
    const fields = [below(65_536), below(256), below(256), below(256), below(2 ** 32)];
    const samples = times(1 + below(5), () => pick(below, [below(2 ** 31), -1 - below(2 ** 31), below(9)]));
    return writeCase('chosen', fields, samples);
  });
  return [...WRITE_EDGES, ...chosen];
}

// Call 101.

const BYTES = [0, 0, 0, 7, 255, 255, 255, 254, 128, 0, 0, 1, 127, 255];

function stretchCase(note, record, start, size, index) {
  return { note, args: { record, start, size, index } };
}

const FAR = [2n ** 62n, 2n ** 62n + 1n, 2n ** 63n, LARGEST_U64];

const STRETCH_EDGES = [
  ...[0, 1, 2, 3, 4].map((index) => stretchCase(`all, sample ${index}`, BYTES, 0, 14, index)),
  ...[0, 1, 3, 4, 5, 7, 8, 12, 13].map((size) => stretchCase(`${size} bytes`, BYTES, 4, size, 1)),
  ...[1, 2, 4, 10, 11, 13, 14, 15].map((start) => stretchCase(`from ${start} on`, BYTES, start, 14, 0)),
  ...FAR.map((far) => stretchCase(`from ${far} on`, BYTES, far, 4, 0)),
  ...FAR.map((far) => stretchCase(`${far} bytes`, BYTES, 6, far, 1)),
  ...FAR.map((far) => stretchCase(`from 1, ${far} bytes`, BYTES, 1, far, 0)),
  ...FAR.map((far) => stretchCase(`sample ${far}`, BYTES, 0, 14, far)),
  stretchCase('start and size wrap together', BYTES, LARGEST_U64, 2, 0),
  stretchCase('no bytes', [], 0, 4, 0),
  stretchCase('lowest sample', [128, 0, 0, 0], 0, 4, 0),
  stretchCase('highest sample', [127, 255, 255, 255], 0, 4, 0),
  stretchCase('three bytes', [1, 2, 3], 0, 4, 0),
  stretchCase('samples of the page', JOB, 27, 12, 0),
  stretchCase('last of 1024 samples', recordOf([1, 2, 1, 1, 8], filled(1024, -5)), 27, 4096, 1023),
  stretchCase('one past 1024 samples', recordOf([1, 2, 1, 1, 8], filled(1024, -5)), 27, 4096, 1024),
];

function stretchCases() {
  const below = chance(159);
  const chosen = times(30, () => {
    const record = times(below(40), () => below(256));
    return stretchCase('chosen', record, below(20), below(30), below(8));
  });
  return [...STRETCH_EDGES, ...chosen];
}

export const casesOfRecords = { 13: readCases, 14: writeCases, 101: stretchCases };
