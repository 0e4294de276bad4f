// The outputs and doubles in against facts that the requirements tell of them.
import { asWhole, doublesIn, doublesPicture, summaryPicture, wholePicture } from './calls.mjs';
import { chance } from './inputs.mjs';
import { size } from './limits.mjs';
import { holds, plan, same } from './testing.mjs';

// Both modes give a nearest whole number, and differ where there are two.
function roundingFacts(result, divisor) {
  const [even, up] = [0n, 1n].map((mode) => BigInt(asWhole(result, divisor, mode)));
  const name = `${result} over ${divisor}`;
  for (const cell of [even, up]) holds(`nearest of ${name}`, 2n * size(result - cell * divisor) <= divisor);
  if (2n * size(result - up * divisor) < divisor) {
    same(`one nearest of ${name}`, even, up);
  } else {
    holds(`even of ${name}`, even % 2n === 0n);
    holds(`upward of ${name}`, up * divisor > result);
  }
  same(`negated, ${name}`, BigInt(asWhole(-result, divisor, 0n)), -even);
}

function wholeFacts() {
  const below = chance(3);
  for (let n = 0; n < 200; n++) {
    const divisor = BigInt(1 + below(n < 100 ? 9 : 2 ** 31));
    const result = BigInt(below(2 ** 50) - 2 ** 49);
    roundingFacts(result, divisor);
    roundingFacts(result - result % (2n * divisor) + divisor, 2n * divisor);
  }
}

function outputFacts() {
  const one = { across: plan(0, 1, 0, 1), down: plan(1, 2, 1, 1), bound: 4n, width: 3n, height: 1n };
  const results = BigInt64Array.of(16n, -12n, 0n);
  const wholeIn = (more) => wholePicture({ ...one, ...more, results, cells: Int32Array.of(7, 7, 7) });
  same('whole of a picture', wholeIn({ mode: 0n }).cells, [2, -2, 0]);
  same('whole of a picture, upward', wholeIn({ mode: 1n }).cells, [2, -1, 0]);
  same('whole of a picture, without a mode', wholeIn({}).cells, [2, -2, 0]);
  const noMode = wholeIn({ mode: 2n });
  same('whole of a picture, no such mode', [noMode.number, noMode.position, noMode.cells], [21, 0, [7, 7, 7]]);
  same('doubles of a picture', doublesPicture({ ...one, results, cells: new Float64Array(3) }).cells, [2, -1.5, 0]);
  const summary = summaryPicture({ ...one, results });
  same('summary of a picture', [summary.lowest, summary.highest, summary.indexOfLowest, summary.indexOfHighest],
    [-1.5, 2, 1, 0]);
  const refused = summaryPicture({ ...one, results: BigInt64Array.of(0n, 0n, 33n) });
  same('refused summary', Object.values(refused), [12, 2, 0, 0, 0, 0, 0]);
}

function doublesInFacts() {
  const convert = (doubles) => doublesIn({
    bound: 9n, doubles: Float64Array.from(doubles), samples: new Int32Array(doubles.length).fill(7),
  });
  same('minus zero', convert([-0]).samples, [0]);
  same('accepted', convert([9, -9, 0]).samples, [9, -9, 0]);
  for (const bad of [NaN, Infinity, -Infinity, 0.5, 5e-324, 10, 2 ** 53]) {
    const outcome = convert([1, bad]);
    same(`double ${bad}`, [outcome.number, outcome.position, outcome.bad, outcome.samples], [11, 1, 1, [7, 7]]);
  }
}

export function testValues() {
  wholeFacts();
  outputFacts();
  doublesInFacts();
}
