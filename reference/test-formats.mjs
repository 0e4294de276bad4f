// The job record and the driver's stream: what is written is read back, and how a stream ends.
import { readRecord, recordLength, samplesIn, writeRecord } from './record.mjs';
import { bitsOf, bytesOfWords, callWords, linesFor, wordsOfBytes } from './stream.mjs';
import { chance } from './inputs.mjs';
import { holds, numbersOf, plan, same } from './testing.mjs';

function recordFacts() {
  const below = chance(4);
  for (let n = 0; n < 40; n++) {
    const fields = [below(65_536), below(256), below(256), below(256), below(2 ** 32)];
    const [radius, inner, edge, passes, bound] = fields.map(BigInt);
    const samples = Int32Array.from({ length: 1 + below(6) }, () => below(2 ** 32) - 2 ** 31);
    const empty = new Uint8Array(recordLength(samples.length));
    const { number, record } = writeRecord({ radius, inner, edge, passes, bound, samples, record: empty });
    const read = readRecord({ record });
    same('writer number', number, 0);
    const samplesRead = samplesIn(record, read.start, read.length);
    same('reader undoes writer', numbersOf(read), [0, ...fields]);
    same('samples come back', samplesRead, samples);
    same('writer undoes reader', writeRecord({ ...read, samples: samplesRead, record: empty }).record, record);
    holds('every cut is refused', Array.from(record, (_, cut) => readRecord({ record: record.slice(0, cut) }).number)
      .every((each) => each === 14n));
  }
  same('record of 1024 samples', recordLength(1_024), 4_123);
}

function streamFacts() {
  const args = { plan: plan(1, 2, 1, 1), bound: 8n, samples: [8, 0, 0], results: [1, -1, 2], work: [3, 3, 3] };
  const words = callWords(1, args);
  same('line', linesFor(words), ['0 0 0 32 24 8 0 0 0']);
  same('refused line', linesFor(callWords(1, { ...args, bound: 7n })), ['11 0 1 1 -1 2 3 3 3']);
  same('line of a refused picture', linesFor(callWords(2, {
    ...args, across: args.plan, down: args.plan, bound: 1n, width: 3n, height: 1n, samples: [1, -2, 2],
  })), ['11 1 2 1 -1 2 3 3 3']);
  same('line of a refused edit', linesFor(callWords(3, {
    ...args, bound: 1n, position: 1n, value: 0n, samples: [2, 2, 2], work: [3, 3, 3, 3, 3, 3],
  })), ['11 1 0 1 2 2 2 1 -1 2 3 3 3 3 3 3']);
  same('line of a refused point', linesFor(callWords(4, {
    ...args, bound: 1n, position: 1n, samples: [2, 0, 2], work: [3, 3, 3, 3, 3, 3],
  })), ['11 0 2 0 3 3 3 3 3 3']);
  same('line of refused doubles', linesFor(callWords(6, {
    bound: 1n, doubles: [0.5, 1, 2].map(bitsOf), samples: [7, 8, 9],
  })), ['11 0 2 7 8 9']);
  same('line of results as doubles', linesFor(callWords(25, { results: [0, -1], cells: [0.5, -0].map(bitsOf) })),
    [`0 0 0 ${0xbff0000000000000n}`]);
  same('line of refused results', linesFor(callWords(25, { results: [0, 2n ** 53n], cells: [0.5, -0].map(bitsOf) })),
    [`12 1 ${0x3fe0000000000000n} ${2n ** 63n}`]);
  same('line of doubles as results', linesFor(callWords(26, { doubles: [-0, -1].map(bitsOf), results: [7, 8] })),
    ['0 0 0 0 -1']);
  same('line of doubles that are no results', linesFor(callWords(26, {
    doubles: [1, 0.5, 2 ** 53].map(bitsOf), results: [7, -8, 9],
  })), ['11 1 2 7 -8 9']);
  same('bytes', linesFor(wordsOfBytes(bytesOfWords([...words, ...words]))), new Array(2).fill('0 0 0 32 24 8 0 0 0'));
  same('line of a plan', linesFor(callWords(100, { plan: plan(1, 2, 1, 8) })), ['16777216 16']);
  same('line of a stretch', linesFor(callWords(101, { record: [9, 255, 255, 255, 254, 9], start: 1, size: 5, index: 0 })),
    ['5 -2 255 255 255 254 9']);
  same('first bytes', bytesOfWords([-2n]), [255, 255, 255, 255, 255, 255, 255, 254]);
  same('slice too long', linesFor([...words, 13n, 131_073n]), ['0 0 0 32 24 8 0 0 0', 'stop']);
  same('negative length', linesFor([13n, -1n]), ['stop']);
  same('call broken off', linesFor([...words, ...words.slice(0, 9)]), ['0 0 0 32 24 8 0 0 0']);
  for (const none of [0n, 17n, 24n, 27n, 99n, 103n, 2n ** 32n + 1n, -1n]) {
    same(`call ${none}`, linesFor([...words, none, ...words]), ['0 0 0 32 24 8 0 0 0']);
  }
  same('bits', [bitsOf(0), bitsOf(-0), bitsOf(1)], [0n, 2n ** 63n, 0x3ff0000000000000n]);
  const many = new Array(65).fill(-1);
  same('checksum', linesFor(callWords(1, { ...args, samples: many, results: many, work: [] })),
    [`8 0 0 # 65 ${2 ** 31 - 1 - (65 * 66) / 2}`]);
}

export function testFormats() {
  recordFacts();
  streamFacts();
}
