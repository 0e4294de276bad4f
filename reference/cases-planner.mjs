// Cases of calls 5 and 102: the planner, and the planner of every sigma.
import { LARGEST_U64, chance, pick, times } from './inputs.mjs';

// Notes that the self-test holds the cases to.
export const HALF = 'a half';
export const FULL = 'as heavy as the rest';
export const BELOW_FULL = 'one sigma before';

// Call 5.

function plannerCase(note, sigma, passes, inner) {
  return { note, args: { sigma, passes, inner } };
}

const PLANNER_EDGES = [
  plannerCase('example', 500, 3, 16),
  plannerCase('example', 100, 3, 16),
  plannerCase('example', 200, 1, 16),
  plannerCase('example', 500, 4, 16),
  plannerCase('least of all', 1, 1, 1),
  plannerCase('least sigma', 1, 8, 255),
  plannerCase('largest sigma, one pass', 25_600, 1, 255),
  plannerCase('largest sigma, eight passes', 25_600, 8, 255),
  plannerCase('sigma 0', 0, 3, 16),
  plannerCase('sigma above', 25_601, 3, 16),
  plannerCase('sigma largest', LARGEST_U64, 3, 16),
  plannerCase('sigma 2^32', 2 ** 32, 3, 16),
  plannerCase('passes 0', 500, 0, 16),
  plannerCase('passes 9', 500, 9, 16),
  plannerCase('passes largest', 500, LARGEST_U64, 16),
  plannerCase('inner 0', 500, 3, 0),
  plannerCase('inner 256', 500, 3, 256),
  plannerCase('inner largest', 500, 3, LARGEST_U64),
  plannerCase('1 before 3', 500, 0, 0),
  plannerCase('1 before 13', 0, 9, 16),
  plannerCase('3 before 13', 25_601, 3, 256),
  plannerCase('1 before 3 and 13', LARGEST_U64, LARGEST_U64, LARGEST_U64),
];

// With one pass r(r+1) meets 3s²/10,000 exactly at these sigmas, where the edge weight is 0.
const PLANNER_EXACT = [200, 2800].flatMap((sigma) => [-1, 0, 1].map((more) => (
  plannerCase('about an exact radius', sigma + more, 1, 255))));

const EVERY_PASSES = times(8, (n) => n + 1);
const INNERS = [1, 16, 255];

// Every number of passes over a coarse grid. Steps are finer where a radius is small.
const COARSE = [2, 25, 50, 99, 158, 250, 400, 666, 1000, 1600, 2503, 4000, 6400, 10_000, 16_000, 25_599];

const PLANNER_GRID = INNERS.flatMap((inner) => EVERY_PASSES.flatMap((passes) => (
  COARSE.map((sigma) => plannerCase('coarse grid', sigma, passes, inner)))));

// Inner weight, passes, and every sigma whose survey's value is a whole number and a half; passes that an inner weight
// does not have here have none. With inner weight 1 that is between 0 and the inner weight: a half going up would be
// one radius more.
const HALVES = [
  [1, 2, [100, 900, 8900]],
  [1, 6, [300, 1700, 9900]],
  [1, 8, [200, 1800, 17_800]],
  [2, 3, [100]],
  [10, 3, [100, 500]],
  [16, 1, [60, 300]],
  [16, 3, [800]],
  [16, 4, [120, 600]],
  [100, 3, [200, 1000, 5000]],
  [100, 5, [100]],
  [254, 2, [304]],
  [254, 3, [100, 12_700]],
  [254, 8, [608]],
  [255, 1, [25, 50, 70, 100, 140, 230, 525, 1840, 4650]],
  [255, 2, [100, 360, 900, 8900]],
  [255, 4, [50, 100, 140, 200, 280, 460, 1050, 3680, 9300]],
  [255, 5, [625]],
  [255, 6, [100, 150, 300, 600, 1700, 9900]],
  [255, 7, [1500]],
  [255, 8, [200, 720, 1800, 17_800]],
];

const PLANNER_HALVES = HALVES.flatMap(([inner, passes, sigmas]) => (
  sigmas.map((sigma) => plannerCase(HALF, sigma, passes, inner))));

// Inner weight, and by passes the first sigma for which the inner weight itself is nearest.
const FULL_EDGES = [
  [1, [71, 101, 123, 142, 159, 174, 188, 201]],
  [2, [78, 110, 135, 155, 174, 190, 205, 220]],
  [16, [141, 115, 141, 163, 182, 199, 215, 230]],
  [255, [432, 611, 648, 864, 707, 3181, 216, 1222]],
];

const PLANNER_FULL = [
  ...FULL_EDGES.flatMap(([inner, firsts]) => firsts.flatMap((sigma, n) => [
    plannerCase(BELOW_FULL, sigma - 1, n + 1, inner),
    plannerCase(FULL, sigma, n + 1, inner),
  ])),
  // The last such sigmas of their passes and inner weight.
  plannerCase(FULL, 25_600, 1, 1),
  plannerCase(FULL, 25_556, 8, 16),
  plannerCase(FULL, 25_597, 2, 255),
];

// Some halves and heavy edges lie on the grid.
function different(cases) {
  const asked = new Set();
  return cases.filter(({ args }) => {
    const numbers = Object.values(args).join(' ');
    return !asked.has(numbers) && asked.add(numbers);
  });
}

function plannerCases() {
  const below = chance(105);
  const chosen = times(72, (n) => {
    const sigma = pick(below, [1 + below(100), 1 + below(1_000), 1 + below(25_600)]);
    return plannerCase('chosen', sigma, 1 + n % 8, pick(below, [1, 2, 16, 100, 255]));
  });
  const named = [...PLANNER_EDGES, ...PLANNER_HALVES, ...PLANNER_FULL, ...PLANNER_EXACT, ...PLANNER_GRID];
  return [...different(named), ...chosen];
}

// Call 102.

function everySigmaCase(note, passes, inner) {
  return { note, args: { passes, inner } };
}

const EVERY_SIGMA_INNERS = [1, 2, 16, 100, 254, 255];

function everySigmaCases() {
  const accepted = EVERY_SIGMA_INNERS.flatMap((inner) => (
    EVERY_PASSES.map((passes) => everySigmaCase('every sigma', passes, inner))));
  return [...accepted, everySigmaCase('passes 9', 9, 16), everySigmaCase('inner 0', 8, 0)];
}

export const casesOfPlanner = { 5: plannerCases, 102: everySigmaCases };
