// Cases of call 2: smoothing a picture.
import { divisorOf } from './smoothing.mjs';
import {
  BAD_SAMPLES, EIGHT, EXACT, EXACT_BOUND, FIVE, LARGEST_I64, LEAST_I64, MOST_BOUND, ONE, THREE,
  anyBound, anyPatches, anyPlan, anySamples, chance, filled, junk, oneBadOf, plan, times,
} from './inputs.mjs';
import { PICTURE_LIMITS, SAMPLE_FAULTS, faultCases, lengthFaults } from './faults.mjs';

function pictureCase(note, [across, down], bound, [width, height], samples, more = {}) {
  const [results, work] = [filled(samples.length, 7), filled(samples.length, -7)];
  return { note, args: { across, down, bound, width, height, samples, results, work, ...more } };
}

const NINES = [9, -8, 7, -6, 5, -4, 3, -2, 1, 0];

const PICTURE_EDGES = [
  pictureCase('example', [FIVE, FIVE], 1, [2, 2], [1, 0, 0, 0]),
  pictureCase('one cell', [plan(3, 2, 1, 2), THREE], 9, [1, 1], [-9]),
  pictureCase('one row', [plan(1, 2, 1, 2), plan(5, 1, 0, 1)], 9, [4, 1], [9, 0, -3, 1]),
  pictureCase('one column', [plan(5, 1, 0, 1), plan(1, 2, 1, 2)], 9, [1, 4], [9, 0, -3, 1]),
  pictureCase('across only', [EIGHT, ONE], 9, [3, 2], [9, 0, 0, 0, 0, 1]),
  pictureCase('down only', [ONE, EIGHT], 9, [3, 2], [9, 0, 0, 0, 0, 1]),
  pictureCase('radii above both sides', [plan(7, 1, 0, 2), plan(4, 3, 2, 1)], 9, [3, 2], [9, -8, 7, -6, 5, -4]),
  pictureCase('eight passes each', [plan(0, 2, 1, 8), plan(1, 1, 0, 8)], 20_000, [2, 2], [20_000, -1, 3, 0]),
  pictureCase('largest radii', [plan(1023, 1, 0, 1), plan(1023, 1, 0, 1)], MOST_BOUND, [3, 3],
    [MOST_BOUND, -MOST_BOUND, 5, 0, -1, 1, MOST_BOUND, 0, 0]),
  pictureCase('product 2^53 - 1', EXACT, EXACT_BOUND, [2, 1], [EXACT_BOUND, -EXACT_BOUND]),
  pictureCase('all at the bound, product 2^53 - 1', EXACT, EXACT_BOUND, [1, 2], filled(2, -EXACT_BOUND)),
  pictureCase('bound one above product 2^53 - 1', EXACT, EXACT_BOUND + 1, [2, 1], [1, 2]),
  pictureCase('4097 by 1', [FIVE, THREE], 9, [4097, 1], filled(4_097, 1)),
  pictureCase('257 by 256', [FIVE, THREE], 9, [257, 256], filled(65_792, 1)),
  pictureCase('slices empty, sides good', [FIVE, THREE], 9, [2, 2], []),
  pictureCase('product of sides is 2^64, slices empty', [FIVE, THREE], 9, [2 ** 32, 2 ** 32], []),
  pictureCase('across without passes, down with edge as inner', [plan(1, 2, 1, 0), plan(1, 2, 2, 1)], 9, [1, 1], [1]),
  pictureCase('across with edge as inner, down without passes', [plan(1, 2, 2, 1), plan(1, 2, 1, 0)], 9, [1, 1], [1]),
  pictureCase('across inner 0, down radius 1024', [plan(1, 0, 0, 1), plan(1024, 2, 1, 1)], 9, [1, 1], [1]),
  pictureCase('two cells too large, the first in row order not the first in column order', [FIVE, THREE], 9, [3, 2],
    [1, 2, 10, 4, -10, 6]),
  pictureCase('last cell too large', [FIVE, THREE], 9, [3, 2], [1, 2, 3, 4, 5, -10]),
  pictureCase('slices alike, not as the sides', [FIVE, THREE], 9, [3, 2], [1, 2, 3, 4]),
  pictureCase('slices of one row', [FIVE, THREE], 9, [3, 2], [1, 2, 3]),
  pictureCase('slices of a row more', [FIVE, THREE], 9, [3, 2], times(9, (n) => n)),
  pictureCase('extremes in the slices at entry', [FIVE, THREE], 9, [1, 2], [1, 2], {
    results: [LEAST_I64, LARGEST_I64], work: [LARGEST_I64, LEAST_I64],
  }),
  pictureCase('radius far above the width', [plan(1023, 1, 0, 1), EIGHT], 9, [2, 5], NINES),
  pictureCase('radius far above the height', [EIGHT, plan(1023, 1, 0, 1)], 9, [5, 2], NINES),
  pictureCase('most passes across, one down', [plan(1, 1, 0, 8), EIGHT], 9, [4, 3], [...NINES, 1, 2]),
  pictureCase('one pass across, most down', [EIGHT, plan(1, 1, 0, 8)], 9, [4, 3], [...NINES, 1, 2]),
  pictureCase('plans the other way round', [plan(2, 3, 1, 2), plan(0, 5, 2, 3)], 9, [4, 3], [...NINES, 1, 2]),
  pictureCase('plans the one way round', [plan(0, 5, 2, 3), plan(2, 3, 1, 2)], 9, [4, 3], [...NINES, 1, 2]),
  pictureCase('divisor across alone too large', [plan(0, 99, 0, 8), ONE], 1, [1, 1], [1]),
  pictureCase('divisor down alone too large', [ONE, plan(0, 99, 0, 8)], 1, [1, 1], [1]),
  pictureCase('product 2^64', [plan(0, 12, 10, 4), plan(0, 12, 10, 4)], 2 ** 24, [1, 2], [1, -1]),
];

const PICTURE_BAD = [
  ...BAD_SAMPLES.map(([note, samples]) => pictureCase(note, [FIVE, THREE], 9, [2, 2], samples)),
  ...oneBadOf(18).map(([note, samples]) => pictureCase(note, [FIVE, THREE], 9, [6, 3], samples)),
  pictureCase('one column bad', [FIVE, THREE], 9, [3, 2], [1, 10, 2, 3, -10, 4]),
  pictureCase('one row bad', [FIVE, THREE], 9, [3, 2], [1, 2, 3, 10, -10, 11]),
  pictureCase('256 by 256, all bad', [FIVE, THREE], 9, [256, 256], filled(65_536, -10)),
  pictureCase('all bad, and a side', [FIVE, THREE], 9, [2, 4097], filled(8_194, 10)),
];

// One row and one column of every short length.
const PICTURE_LINES = times(5, (n) => NINES.slice(0, n + 1)).flatMap((samples) => [
  pictureCase(`one row of ${samples.length}`, [plan(2, 3, 2, 2), EIGHT], 9, [samples.length, 1], samples),
  pictureCase(`one column of ${samples.length}`, [EIGHT, plan(2, 3, 2, 2)], 9, [1, samples.length], samples),
]);

// Windows below, about and above the period of either side.
const PICTURE_WINDOWS = times(3, (n) => n + 1).flatMap((side) => times(8, (radius) => [
  pictureCase(`${side} columns, radius ${radius}`, [plan(radius, 3, 2, 1), THREE], 9, [side, 2], NINES.slice(0, 2 * side)),
  pictureCase(`${side} rows, radius ${radius}`, [THREE, plan(radius, 3, 2, 1)], 9, [2, side], NINES.slice(0, 2 * side)),
]).flat());

// Large pictures of varied patches.
const LARGE_PICTURES = [
  ['different plans', [4096, 16], [plan(7, 4, 3, 2), plan(30, 2, 1, 1)]],
  ['different plans', [16, 4096], [plan(30, 2, 1, 1), plan(7, 4, 3, 2)]],
  ['different plans', [256, 256], [plan(5, 3, 1, 3), plan(2, 16, 7, 2)]],
  ['largest radius down', [4096, 3], [EIGHT, plan(1023, 3, 2, 1)]],
  ['largest radius across', [3, 4096], [plan(1023, 3, 2, 1), EIGHT]],
  ['one row', [4096, 1], [plan(20, 3, 1, 3), FIVE]],
  ['one column', [1, 4096], [FIVE, plan(20, 3, 1, 3)]],
  ['eight passes each', [40, 30], [plan(1, 1, 0, 8), plan(1, 1, 0, 8)]],
];

function largePictures() {
  const below = chance(112);
  return LARGE_PICTURES.map(([note, [width, height], plans]) => {
    const bound = Math.min(anyBound(below, ...plans), MOST_BOUND - 1);
    const samples = anyPatches(below, width * height, bound);
    return pictureCase(`${width} by ${height}, ${note}`, plans, bound, [width, height], samples);
  });
}

function pictureFaults() {
  const samples = [5, -3, 1000, 0, 2, 999];
  const good = pictureCase('', [EIGHT, FIVE], 1000, [3, 2], samples, { results: [1, 2, 3, 4, 5, LEAST_I64] }).args;
  return faultCases(2, good, [
    ...PICTURE_LIMITS,
    ...lengthFaults('samples'), ...lengthFaults('results'), ...lengthFaults('work'),
    ...SAMPLE_FAULTS,
  ]);
}

function chosenPlans(below, n) {
  const across = anyPlan(below, 1 + n % 8, 2n ** 40n);
  const down = anyPlan(below, 1 + below(3), 2n ** 53n / divisorOf(across));
  return [across, down];
}

function smoothPictureCases() {
  const below = chance(102);
  const chosen = times(40, (n) => {
    const plans = chosenPlans(below, n);
    const bound = anyBound(below, ...plans);
    const [width, height] = [1 + below(4), 1 + below(4)];
    const cells = width * height;
    return pictureCase('chosen', plans, bound, [width, height], anySamples(below, cells, bound), {
      results: junk(below, cells), work: junk(below, cells),
    });
  });
  return [
    ...PICTURE_EDGES, ...PICTURE_BAD, ...PICTURE_LINES, ...PICTURE_WINDOWS, ...pictureFaults(), ...chosen, ...largePictures(),
  ];
}

export const casesOfPictures = { 2: smoothPictureCases };
