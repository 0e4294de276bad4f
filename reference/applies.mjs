// Whether a number of the table of refusals applies to a call's arguments, asked by itself. A call answers only the
// lowest that applies, so that of a case of two numbers it does not tell whether the other applies at all.
// The arguments are those that the stream hands out.
import {
  MOST_BOUND, MOST_CELLS, MOST_INNER, MOST_MODE, MOST_PASSES, MOST_PRODUCT, MOST_RADIUS, MOST_RESULT, MOST_SIDE,
  MOST_SIGMA, outside, size,
} from './limits.mjs';
import { divisorOf, reachOf } from './smoothing.mjs';

// The planner is given a plan's passes and inner weight alone.
function plansOf(args) {
  if ('sigma' in args) return [args];
  return [args.plan, args.across, args.down].filter((plan) => plan !== undefined);
}

// M times the divisor. By 64 passes every divisor above 1 is larger than what a result can hold. A call without a plan
// takes every result.
function mostOf(args) {
  if (plansOf(args).length === 0) return MOST_RESULT;
  const counted = (plan) => ({ ...plan, passes: plan.passes > 64n ? 64n : plan.passes });
  return plansOf(args).reduce((product, plan) => product * divisorOf(counted(plan)), args.bound);
}

function lengthOf({ width, height, doubles, samples, results }) {
  return width === undefined ? BigInt((doubles ?? samples ?? results).length) : width * height;
}

function sizesWrong(args) {
  const sides = 'width' in args ? [args.width, args.height] : [];
  return sides.some((side) => outside(side, 1n, MOST_SIDE)) || outside(lengthOf(args), 1n, MOST_CELLS);
}

// Edit and point, which have a position, ask for twice as much work.
function slicesWrong(args) {
  const length = lengthOf(args);
  const { samples, results, cells, work } = args;
  const wrong = (slice, wanted) => slice !== undefined && BigInt(slice.length) !== wanted;
  return [samples, results, cells].some((slice) => wrong(slice, length))
    || wrong(work, 'position' in args ? 2n * length : length);
}

// By distance alone, so that a position past the end has samples and results within reach, too.
function near({ plan, position }, n) {
  return size(BigInt(n) - position) <= BigInt(reachOf(plan));
}

function sampleTested(args, n) {
  if ('value' in args) return BigInt(n) === args.position;
  return 'position' in args ? near(args, n) : true;
}

// How many of the samples that the call tests are not acceptable. Without a bound, doubles are to be results.
export function samplesWrong(args) {
  const { bound = MOST_RESULT, doubles, samples } = args;
  const wrong = doubles
    ? (double) => !(Number.isInteger(double) && Math.abs(double) <= Number(bound))
    : (sample, n) => sampleTested(args, n) && size(BigInt(sample)) > bound;
  return (doubles ?? samples).filter(wrong).length;
}

// Of an edit the results before it.
function resultsWrong(args) {
  const most = mostOf(args);
  return args.results.some((result, n) => (!('position' in args) || near(args, n)) && size(result) > most);
}

const ROWS = {
  1: (args) => plansOf(args).some(({ passes }) => outside(passes, 1n, MOST_PASSES)),
  2: (args) => plansOf(args).some(({ radius }) => radius > MOST_RADIUS),
  3: (args) => plansOf(args).some(({ inner }) => outside(inner, 1n, MOST_INNER)),
  4: (args) => plansOf(args).some(({ inner, edge }) => edge >= inner),
  5: ({ bound }) => outside(bound, 1n, MOST_BOUND),
  6: (args) => mostOf(args) > MOST_PRODUCT,
  7: sizesWrong,
  8: slicesWrong,
  9: (args) => args.position >= lengthOf(args),
  10: ({ bound, value }) => size(value) > bound,
  11: (args) => samplesWrong(args) > 0,
  12: resultsWrong,
  13: ({ sigma }) => outside(sigma, 1n, MOST_SIGMA),
  21: ({ mode }) => mode > MOST_MODE,
};

export function applies(number, args) {
  return ROWS[number](args);
}
