// The numbers that a host gives: what they are taken as against the tables, and records as hosts write them.
import {
  DOUBLES_TAKEN, PLANS_TAKEN, RECORDS_WRITTEN, UNTAKEN, countOf, planIn, wholeOf, writeRecordIn,
} from './arguments.mjs';
import { chance } from './inputs.mjs';
import { readRecord, samplesIn } from './record.mjs';
import { bitsOf } from './stream.mjs';
import { bytesOfHex, numbersOf, same } from './testing.mjs';

function tableFacts() {
  for (const [double, whole, count] of DOUBLES_TAKEN) {
    same(`double ${double} is taken as`, [wholeOf(double), countOf(double)], [whole, count]);
  }
  const different = new Set(DOUBLES_TAKEN.map(([double]) => bitsOf(double)));
  same('doubles of the table differ', different.size, DOUBLES_TAKEN.length);
  for (const [doubles, [radius, inner, edge, passes]] of PLANS_TAKEN) {
    const taken = planIn(doubles);
    same(`plan ${doubles}`, [taken.radius, taken.inner, taken.edge, taken.passes], [radius, inner, edge, passes]);
  }
  same('untaken', UNTAKEN, 9_007_199_254_740_992n);
}

// A double that is taken as another number than itself is taken as 2^53, and no whole number within the limit is.
function takenFacts() {
  const below = chance(7);
  for (let n = 0; n < 200; n++) {
    const double = (below(2 ** 30) - 2 ** 29) * 2 ** (below(40) - 8);
    const whole = wholeOf(double);
    const isWhole = Math.floor(double) === double && Math.abs(double) < 2 ** 53;
    same(`${double} is taken as`, Number(whole), isWhole ? double + 0 : 2 ** 53);
    same(`${double} is counted as`, countOf(double), double < 0 ? UNTAKEN : whole);
  }
}

function recordFacts() {
  for (const [note, plan, bound, samples, room, wanted] of RECORDS_WRITTEN) {
    const lent = new Uint8Array(room).fill(170);
    const args = { plan, bound, samples: Int32Array.from(samples), record: lent };
    const { number, position, record } = writeRecordIn(args);
    same(`record, ${note}`, [number, position], [wanted, 0]);
    same(`record, ${note}: lent bytes`, lent, new Uint8Array(room).fill(170));
    if (wanted !== 0) {
      same(`record, ${note}: bytes stay`, record, lent);
    } else {
      const read = readRecord({ record });
      same(`record, ${note}: read back`, numbersOf(read), [0, ...plan, bound].map((each) => each + 0));
      same(`record, ${note}: samples`, samplesIn(record, read.start, read.length), samples);
    }
  }
  const numbers = new Set(RECORDS_WRITTEN.map((each) => each.at(-1)));
  same('numbers of records written', [...numbers].sort((a, b) => a - b), [0, 1, 2, 3, 4, 5, 7, 8]);
}

function byHand() {
  const hex = '01 0002 ffff 02 0001 ff 03 0001 fe 04 0001 fd 05 0004 fffffffc 06 0004 fffffffe';
  const written = writeRecordIn({
    plan: [65_535, 255, 254, 253], bound: 4_294_967_292, samples: Int32Array.of(-2), record: new Uint8Array(31),
  });
  same('record by hand', [written.number, written.record], [0, bytesOfHex(hex)]);
  const most = (count) => writeRecordIn({
    plan: [1, 2, 1, 8], bound: 9, samples: new Int32Array(count), record: new Uint8Array(27 + 4 * count),
  }).number;
  same('records of many samples', [most(1_024), most(1_025)], [0, 7]);
}

export function testArguments() {
  tableFacts();
  takenFacts();
  recordFacts();
  byHand();
}
