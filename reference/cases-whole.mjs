// Cases of calls 7 and 10, whole numbers of a series and of a picture in a mode, and of 107 and 110, without one.
import { divisorOf } from './smoothing.mjs';
import { EIGHT, FIVE, LARGE, LARGE_BOUND, LARGEST_U64, MOST_BOUND, THREE, TWO, plan, times } from './inputs.mjs';
import { fault } from './faults.mjs';
import {
  LIMIT_LISTS, PICTURE_LISTS, PICTURE_LIMIT_LISTS, RESULT_LISTS, WHOLE_CELLS,
  asPictures, listedPictures, listedSeries, pictureFaults, pictureOutputs, seriesFaults, seriesOutputs,
} from './cases-outputs.mjs';

// Divisors whose halves are results, and the next odd one.
const TEN = plan(0, 4, 3, 1);
const NINE = plan(1, 3, 0, 1);
// Of divisor 2^22: the largest power of 2 under the largest bound.
const WIDE = plan(127, 8, 4, 2);

// Each whole number from low to high and a half, so that even and odd quotients of both signs are among them.
function halves(divisor, low, high) {
  return times(high - low + 1, (n) => (low + n) * divisor + divisor / 2);
}

// At a divisor and bound: the limit itself, and the halves and what is next to them just below it, of both signs.
function atTheLimit(chosen, bound) {
  const divisor = divisorOf(chosen);
  const most = BigInt(bound) * divisor;
  const near = [0n, 1n, divisor / 2n - 1n, divisor / 2n, divisor / 2n + 1n, divisor, divisor + divisor / 2n];
  return near.flatMap((less) => [most - less, less - most]);
}

const HALF_LISTS = [
  ['halves of 8, even and odd', EIGHT, 9, halves(8, -5, 4)],
  ['halves of 10, even and odd', TEN, 9, halves(10, -5, 4)],
  ['halves of 2, even and odd', TWO, 9, halves(2, -5, 4)],
  ['next to the halves of 8', EIGHT, 9, halves(8, -3, 2).flatMap((half) => [half - 1, half + 1])],
  ['9 has no halves', NINE, 9, [-14, -13, -5, -4, 4, 5, 13, 14]],
  ['at the limit, divisor 2, largest bound', TWO, MOST_BOUND, atTheLimit(TWO, MOST_BOUND)],
  ['at the limit, divisor 3, largest bound', THREE, MOST_BOUND, atTheLimit(THREE, MOST_BOUND)],
  ['at the limit, divisor 2^22, largest bound', WIDE, MOST_BOUND, atTheLimit(WIDE, MOST_BOUND)],
  ['at the limit, divisor 2^24', LARGE, LARGE_BOUND, atTheLimit(LARGE, LARGE_BOUND)],
];

const HALF_PICTURES = [
  ['halves of 2 times 5', [TWO, FIVE], 9, [5, 2], halves(10, -5, 4)],
  ['halves of 5 times 8', [FIVE, EIGHT], 9, [2, 5], halves(40, -5, 4)],
  ['3 times 5 has no halves', [THREE, FIVE], 9, [4, 1], [-22, -7, 7, 22]],
  ...asPictures(HALF_LISTS),
];

// Every case in both modes, a long one in one of them.
function inModes(cases) {
  return cases.flatMap(({ note, args }, n) => {
    const modes = args.results.length < 100 ? [0, 1] : [n % 2];
    return modes.map((mode) => ({ note: note === 'chosen' ? note : `mode ${mode}: ${note}`, args: { ...args, mode } }));
  });
}

// The low half of the fourth is 1, and that of the third is 0.
const MODE_FAULTS = [2, 3, 2 ** 32, 2 ** 32 + 1, 2n ** 63n, LARGEST_U64]
  .map((mode) => fault(21, `mode ${mode}`, () => ({ mode })));

// Of all other lists the form without a mode has the page's examples, and the short ones about limits.
const EXAMPLES = RESULT_LISTS.filter(([note]) => note.startsWith('example'));
const short = (lists) => lists.filter((list) => list.at(-1).length < 100);

export const casesOfWhole = {
  7: () => [
    ...inModes(listedSeries(7, WHOLE_CELLS, [...RESULT_LISTS, ...HALF_LISTS])),
    ...seriesFaults(7, WHOLE_CELLS, { mode: 1 }, MODE_FAULTS),
  ],
  10: () => [
    ...inModes(listedPictures(10, WHOLE_CELLS, [...PICTURE_LISTS, ...HALF_PICTURES])),
    ...pictureFaults(10, WHOLE_CELLS, { mode: 1 }, MODE_FAULTS),
  ],
  107: () => seriesOutputs(107, WHOLE_CELLS, [...EXAMPLES, ...HALF_LISTS, ...short(LIMIT_LISTS)]),
  110: () => pictureOutputs(110, WHOLE_CELLS, [
    ...asPictures(EXAMPLES), ...HALF_PICTURES, ...short(PICTURE_LIMIT_LISTS),
  ]),
};
