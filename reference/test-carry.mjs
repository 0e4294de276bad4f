// The outputs that carry remainders against facts that the requirements tell of them, on chosen inputs and on every
// case. The facts go by sums: a carry is the remainder of the sum of all results before it.
import { carryPicture, carrySeries, divisorOfAll, smoothPicture } from './calls.mjs';
import { casesOf } from './cases.mjs';
import { anyBound, anyPlan, anySamples, chance } from './inputs.mjs';
import { size } from './limits.mjs';
import { CALLS, decoded } from './stream.mjs';
import { holds, plan, same, smoothed, total, work } from './testing.mjs';

function divisorIn({ plan: chosen, across, down }) {
  return divisorOfAll(chosen ? [chosen] : [across, down]);
}

// The carry before each cell, and behind the last.
function carriesOf(results, divisor) {
  let sum = 0n;
  const behind = Array.from(results, (result) => {
    sum += result;
    return ((sum % divisor) + divisor) % divisor;
  });
  return [0n, ...behind];
}

function doneFacts(name, args, { number, position, carry, cells }) {
  const { bound, results } = args;
  const divisor = divisorIn(args);
  const carries = carriesOf(results, divisor);
  same(`${name}: answer`, [number, position, carry], [0, 0, carries.at(-1)]);
  holds(`${name}: each cell is what its carries leave`, cells.every((cell, n) => (
    divisor * BigInt(cell) === results[n] + carries[n] - carries[n + 1])));
  holds(`${name}: less than 1 from the quotients`, cells.every((cell, n) => (
    size(divisor * BigInt(cell) - results[n]) < divisor)));
  holds(`${name}: sizes of cells`, cells.every((cell) => size(BigInt(cell)) <= bound));
  same(`${name}: sum of results`, divisor * total(cells) + carry, total(results));
}

// A call on arbitrary results, and on those of a smoothing of the samples.
function chosenFacts(name, call, limits, { arbitrary, samples, smoothing }) {
  const carried = (results) => {
    const wholeResults = BigInt64Array.from(results, (each) => BigInt(each));
    const args = { ...limits, results: wholeResults, cells: new Int32Array(results.length).fill(7) };
    const outcome = call(args);
    doneFacts(name, args, outcome);
    return outcome;
  };
  carried(arbitrary);
  const { carry, cells } = carried(smoothing);
  same(`${name}: last carry of a smoothing`, carry, 0);
  same(`${name}: sum of samples`, total(cells), total(samples));
}

function chosenPlan(...choice) {
  const { radius, inner, edge, passes } = anyPlan(...choice);
  return plan(radius, inner, edge, passes);
}

function seriesFacts() {
  const below = chance(5);
  for (let n = 0; n < 48; n++) {
    const chosen = chosenPlan(below, 1 + n % 8);
    const bound = anyBound(below, chosen);
    const samples = anySamples(below, 1 + below(8), bound);
    const arbitrary = anySamples(below, 1 + below(8), bound * Number(divisorOfAll([chosen])));
    const smoothing = smoothed(chosen, samples, bound).results;
    const limits = { plan: chosen, bound: BigInt(bound) };
    chosenFacts('series carried', carrySeries, limits, { arbitrary, samples, smoothing });
  }
}

function pictureFacts() {
  const below = chance(6);
  for (let n = 0; n < 32; n++) {
    const [across, down] = [chosenPlan(below, 1 + n % 6, 2n ** 26n), chosenPlan(below, 1 + below(3), 2n ** 26n)];
    const bound = anyBound(below, across, down);
    const [width, height] = [1 + below(4), 1 + below(4)];
    const cells = width * height;
    const limits = { across, down, bound: BigInt(bound), width: BigInt(width), height: BigInt(height) };
    const samples = Int32Array.from(anySamples(below, cells, bound));
    const arbitrary = anySamples(below, cells, bound * Number(divisorOfAll([across, down])));
    const smoothing = smoothPicture({ ...limits, samples, results: work(cells), work: work(cells) }).results;
    chosenFacts('picture carried', carryPicture, limits, { arbitrary, samples, smoothing });
  }
}

// Cells and carries of the cases come to both ends of their ranges.
function endFacts(name, done) {
  const divided = done.filter(({ args }) => divisorIn(args) > 1n).map(({ args, outcome: { carry, cells } }) => {
    const divisor = divisorIn(args);
    return { carry, cells, most: Number(args.bound), largest: divisor - 1n, carries: carriesOf(args.results, divisor) };
  });
  const some = (end, meets) => holds(`${name}: ${end}`, divided.some(meets));
  some('a cell at the bound', ({ cells, most }) => cells.includes(most));
  some('a cell at minus the bound', ({ cells, most }) => cells.includes(-most));
  some('carry 0 on the way', ({ carries }) => carries.slice(1, -1).includes(0n));
  some('largest carry on the way', ({ carries, largest }) => carries.slice(1, -1).includes(largest));
  some('last carry 0', ({ carry }) => carry === 0n);
  some('last carry the largest', ({ carry, largest }) => carry === largest);
}

function caseFacts(call) {
  const { name } = CALLS[call];
  const cases = casesOf(call).map(({ note, words }) => ({ note, ...decoded(words) }));
  const done = cases.filter(({ outcome }) => outcome.number === 0n);
  const refused = cases.filter(({ outcome }) => outcome.number !== 0n);
  for (const { note, args, outcome } of done) {
    doneFacts(`${name}, ${note}`, args, outcome);
    if (note.startsWith('smoothing: ')) same(`${name}, ${note}: last carry`, outcome.carry, 0);
  }
  for (const { note, args, outcome } of refused) {
    same(`${name}, ${note}: refused`, [outcome.carry, outcome.cells], [0, args.cells]);
  }
  endFacts(name, done);
}

export function testCarry() {
  seriesFacts();
  pictureFacts();
  caseFacts(15);
  caseFacts(16);
}
