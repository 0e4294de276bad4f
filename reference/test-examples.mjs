// Every example of the requirements, run on the reference.
import { divisorOf } from './smoothing.mjs';
import { carryPicture, carrySeries, planByItself, planner, smoothPicture, wholeSeries } from './calls.mjs';
import { readRecord, report, samplesIn } from './record.mjs';
import { bytesOfHex, edited, numbersOf, outputArgs, plan, same, smoothed, text, work } from './testing.mjs';

function seriesExamples() {
  const examples = [
    [[5], plan(1, 1, 0, 1), [15]],
    [[0, 0, 9, 0, 0], plan(1, 1, 0, 1), [0, 9, 9, 9, 0]],
    [[0, 0, 9, 0, 0], plan(1, 1, 0, 2), [9, 18, 27, 18, 9]],
    [[8, 0, 0], plan(1, 2, 1, 1), [32, 24, 8]],
    [[1, 2], plan(3, 1, 0, 1), [11, 10]],
    [[1, 0], plan(0, 3, 1, 2), [17, 8]],
    [[7, 7, 7], plan(0, 3, 1, 2), [175, 175, 175]],
    [[4, 0, 0], plan(1, 2, 1, 1), [16, 12, 4]],
  ];
  for (const [samples, chosen, results] of examples) {
    const outcome = smoothed(chosen, samples);
    same(`series ${text(samples)}`, [outcome.number, outcome.position], [0, 0]);
    same(`series ${text(samples)} results`, outcome.results, results);
    same(`series ${text(samples)} work`, outcome.work, samples.map(() => 0));
  }
}

// The picture of 2 by 2, smoothed, and its whole cells that carry remainders.
function pictureExample() {
  const five = plan(0, 3, 1, 1);
  const sides = { across: five, down: five, bound: 1n, width: 2n, height: 2n };
  const picture = smoothPicture({ ...sides, samples: Int32Array.of(1, 0, 0, 0), results: work(4), work: work(4) });
  same('picture', [picture.number, picture.results, picture.work], [0, [16, 4, 4, 1], [0, 0, 0, 0]]);
  const carried = carryPicture({ ...sides, results: picture.results, cells: Int32Array.of(7, 7, 7, 7) });
  same('picture carried', [carried.number, carried.carry, carried.cells], [0, 0, [0, 0, 0, 1]]);
}

function carryExamples() {
  const eight = plan(1, 2, 1, 1);
  const examples = [
    [smoothed(eight, [4, 0, 0]).results, 0, [2, 1, 1]],
    [smoothed(eight, [-4, 0, 0]).results, 0, [-2, -2, 0]],
    [[7, -1, 5], 3, [0, 0, 1]],
  ];
  for (const [results, carry, cells] of examples) {
    const outcome = carrySeries(outputArgs(eight, 4, results, Int32Array));
    same(`carried ${text(results)}`, [outcome.number, outcome.position], [0, 0]);
    same(`carried ${text(results)} carry and cells`, [outcome.carry, outcome.cells], [carry, cells]);
  }
}

function otherExamples() {
  const change = edited(plan(1, 1, 0, 1), 9, 4, 3, [0, 0, 9, 0, 0], [0, 9, 9, 9, 0]);
  same('edit', [change.number, change.count, change.samples, change.results],
    [0, 2, [0, 0, 9, 0, 3], [0, 9, 9, 12, 6]]);

  const plans = [
    [500, 3, 16, 4, 7], [100, 3, 16, 0, 4], [200, 1, 16, 3, 0], [500, 4, 16, 3, 13],
    [800, 3, 16, 7, 7], [316, 1, 16, 5, 0], [100, 2, 1, 0, 0],
  ];
  for (const [sigma, passes, inner, radius, edge] of plans) {
    const found = planner({ sigma: BigInt(sigma), passes: BigInt(passes), inner: BigInt(inner) });
    same(`planner ${sigma} ${passes}`, [found.number, found.radius, found.edge], [0, radius, edge]);
  }

  const eight = plan(1, 2, 1, 1);
  const whole = (results, more) => wholeSeries({ ...outputArgs(eight, 4, results, Int32Array), ...more }).cells;
  same('whole, upward', whole([16, 12, 4], { mode: 1n }), [2, 2, 1]);
  same('whole, upward, negated', whole([-16, -12, -4], { mode: 1n }), [-2, -1, 0]);
  for (const form of [{ mode: 0n }, {}]) {
    same('whole', whole([16, 12, 4], form), [2, 2, 0]);
    same('whole, negated', whole([-16, -12, -4], form), [-2, -2, 0]);
  }

  const large = plan(1, 2, 1, 8);
  same('divisor', divisorOf(large), 16_777_216);
  same('bound accepted', smoothed(large, [1], 536_870_911).number, 0);
  same('bound refused', smoothed(large, [1], 536_870_912).number, 6);
}

function planExamples() {
  const examples = [
    [plan(1, 2, 1, 8), 16_777_216, 16],
    [plan(1, 1, 0, 2), 9, 2],
    [plan(1, 2, 2, 1), 0, 0],
    [plan(1023, 255, 254, 2), 272_998_935_049, 2_048],
    [plan(1023, 255, 254, 3), 0, 0],
    [plan(0, 98, 0, 8), 8_507_630_225_817_856, 0],
    [plan(0, 99, 0, 8), 0, 0],
    [plan(1, 80, 8, 8), 0, 0],
    [plan(1, 2, 1, 0), 0, 0],
    [plan(1, 2, 1, 2n ** 64n - 1n), 0, 0],
  ];
  for (const [chosen, divisor, reach] of examples) {
    const own = planByItself({ plan: chosen });
    same(`plan ${text(Object.values(chosen))}`, [own.divisor, own.reach], [divisor, reach]);
  }
}

const JOB = bytesOfHex(
  '01 0002 0001 02 0001 02 03 0001 01 04 0001 01 05 0004 00000008 06 000C 00000008 00000000 00000000');

function jobExample() {
  same('job report', report(JOB), 'smooth 0 8 3\n0 32\n1 24\n2 8\n');
  const job = readRecord({ record: JOB });
  same('job numbers', numbersOf(job), [0, 1, 2, 1, 1, 8]);
  same('job samples', samplesIn(JOB, job.start, job.length), [8, 0, 0]);
  same('job cut', report(JOB.slice(0, 38)), 'smooth 14 0 0\n');
  same('no job', report(new Uint8Array(0)), 'smooth 14 0 0\n');
  same('4,124 bytes', report(new Uint8Array(4_124)), 'smooth 14 0 0\n');
  same('sample 1 not acceptable', report(JOB.with(34, 9)), 'smooth 11 1 0\n');
  same('passes 9', report(JOB.with(16, 9)), 'smooth 1 0 0\n');
}

export function testExamples() {
  seriesExamples();
  pictureExample();
  carryExamples();
  otherExamples();
  planExamples();
  jobExample();
}
