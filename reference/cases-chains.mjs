// Cases of call 3 in a row: each edit is lent what the one before it left. Refused ones in between leave all as it was.
import { seriesResults } from './smoothing.mjs';
import {
  LARGE, LARGE_BOUND, THREE, WIDEST, WIDEST_BOUND, anySamples, anySeries, chance, filled, junk, pick, plan, times,
} from './inputs.mjs';
import { callWords, decoded } from './stream.mjs';

// Each change has a position and a value, and whatever else differs from the start for this one edit.
function chain(note, start, changes) {
  let lent = start;
  return changes.map((change, n) => {
    const args = { ...lent, ...change };
    const { number, samples, results, work } = decoded(callWords(3, args)).outcome;
    if (number === 0n) lent = { ...start, samples, results, work };
    return { note: `chain: ${note}, edit ${n + 1}`, args };
  });
}

function stored(chosen, bound, samples, results, work = filled(2 * samples.length, -7)) {
  return { plan: chosen, bound, samples, results, work };
}

function smoothed(chosen, bound, samples, work) {
  return stored(chosen, bound, samples, seriesResults(chosen, samples), work);
}

function to(position, value, more = {}) {
  return { position, value, ...more };
}

// One edit refused by each number, among edits of both ends and of what lies between them.
const PAIR = plan(1, 2, 1, 2);
const EVERY_NUMBER = [
  to(0, -9),
  to(0, 5, { plan: { ...PAIR, passes: 0 } }),
  to(0, 5, { plan: { ...PAIR, radius: 1024 } }),
  to(0, 5, { plan: { ...PAIR, inner: 256 } }),
  to(0, 5, { plan: { ...PAIR, edge: 2 } }),
  to(5, 9),
  to(0, 5, { bound: 0 }),
  to(0, 5, { plan: LARGE, bound: LARGE_BOUND + 1 }),
  to(0, 5, { samples: [], results: [], work: [] }),
  to(0, 5, { work: [1, 2, 3] }),
  to(3, -9),
  to(6, 5),
  to(2, 10),
  to(5, 3, { bound: 8 }),
  to(1, 0, { bound: 3 }),
  to(2, 2),
  to(1, 9),
  to(0, 9),
];

const CHAINS = [
  ['there and back', smoothed(THREE, 9, [0, 0, 9, 0, 0]), [to(4, 5), to(4, 0), to(2, -9), to(2, 9)]],
  ['refused by every number', smoothed(PAIR, 9, [9, -1, 2, 0, -9, 4]), EVERY_NUMBER],
  ['one sample', smoothed(plan(2, 3, 2, 2), 9, [9]), [to(0, -9), to(0, -9), to(1, 3), to(0, 0), to(0, 9)]],
  ['between the largest results', smoothed(LARGE, LARGE_BOUND, [-LARGE_BOUND, LARGE_BOUND]), [
    to(0, LARGE_BOUND), to(1, -LARGE_BOUND), to(0, -LARGE_BOUND), to(0, LARGE_BOUND + 1), to(0, -LARGE_BOUND),
    to(1, LARGE_BOUND), to(0, 1),
  ]],
  ['no smoothing stored', stored(THREE, 10, [0, 0, 0, 0], [30, -30, 0, 29]), [
    to(0, 1), to(0, -1), to(3, 1), to(3, -5), to(2, 1), to(2, -1), to(1, 10), to(1, 0), to(0, 0),
  ]],
  ['reach 0', smoothed(plan(0, 2, 0, 3), 5, [1, 2, 3]), [to(1, -5), to(0, 5), to(1, 2)]],
  ['all samples from 0', smoothed(plan(1, 3, 2, 3), 9, filled(7, 0)), times(7, (n) => to(n, 9 - 3 * n))],
  ['70 samples, reach 91', smoothed(plan(12, 4, 3, 7), 59, filled(70, -3)), [
    to(0, 59), to(69, -59), to(70, 1), to(35, 20), to(0, -3),
  ]],
  ['three samples, reach 4,096', smoothed(WIDEST, WIDEST_BOUND, [31, -31, 0]), [
    to(2, 31), to(0, -31), to(1, 32), to(1, 0), to(2, 31),
  ]],
];

// Now and then a position or a value is too large.
function chosenChain(below, n) {
  const { plan: each, bound, samples, length } = anySeries(below, n);
  const start = smoothed(each, bound, samples, junk(below, 2 * length));
  const over = () => pick(below, [0, 0, 0, 1]);
  return chain(`chosen ${n + 1}`, start, times(5, () => (
    to(below(length + over()), anySamples(below, 1, bound + over())[0]))));
}

export function chainCases() {
  const below = chance(114);
  return [...CHAINS.flatMap((each) => chain(...each)), ...times(8, (n) => chosenChain(below, n)).flat()];
}
