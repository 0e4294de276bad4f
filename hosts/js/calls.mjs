// The calls on series and on pictures. Each asks first whether its slices are arrays that it takes, then reads all
// that code of the caller has a say in, then copies cells in and calls. It copies back where the number is 0.
import { numberOf, planOf, plansOf, sizesOf } from './arguments.mjs';
import {
  cellsBack, doubleAnswered, lendCells, lendDoubles, lendEmptyResults, lendPlan, lendQuotients, lendResults,
  lendSamples, lendWork, quotientsBack, resultsBack, resultsFrom, sampleIn, wholeAnswered,
} from './lending.mjs';
import { ROOM, numberAt, ready } from './memory.mjs';
import { DOUBLES, QUOTIENTS, RESULTS, SAMPLES, WHOLE, copy, expect, read, tagOf } from './slices.mjs';

// The modes of whole output: where a half goes.
export const EVEN = 0;
export const UPWARD = 1;

// What a call on a series, and one on a picture, takes first.

export function ofSeries(plan, bound) {
  return { kind: 'series', plans: [planOf(plan)], numbers: [numberOf(bound)] };
}

function ofPicture(plans, bound, sizes) {
  return { kind: 'picture', plans: plansOf(plans), numbers: [numberOf(bound), ...sizesOf(sizes)] };
}

function lendHead(machine, { plans: [plan, down], numbers }) {
  const first = lendPlan(machine, plan);
  if (down === undefined) return [...first, ...numbers];
  return [...first, ...lendPlan(machine, down, ROOM.down), ...numbers];
}

// Smoothing.

const SMOOTHING = { samples: SAMPLES, results: RESULTS };

// Smooths into the room of the results.
export function smoothed(machine, head, samples, results) {
  const slices = [...lendSamples(machine, samples), ...lendEmptyResults(results), ...lendWork(samples)];
  const call = `dungdapple_smooth_${head.kind}`;
  const number = machine.ask(call, ...lendHead(machine, head), ...slices, numberAt(0), numberAt(1));
  return { number, position: wholeAnswered(machine, 0), bad: wholeAnswered(machine, 1) };
}

function smooth(head, samples, results) {
  const [from, to] = [read(samples), read(results)];
  const machine = ready();
  const answer = smoothed(machine, head, from, to);
  if (answer.number === 0) resultsBack(machine, to);
  return answer;
}

export function smoothSeries(plan, bound, samples, results) {
  expect(SMOOTHING, { samples, results });
  return smooth(ofSeries(plan, bound), samples, results);
}

export function smoothPicture(plans, bound, sizes, samples, results) {
  expect(SMOOTHING, { samples, results });
  return smooth(ofPicture(plans, bound, sizes), samples, results);
}

// The plan by itself.

export function reachOf(machine, plan) {
  return machine.ask('dungdapple_reach', ...lendPlan(machine, plan));
}

export function divisor(plan) {
  const given = planOf(plan);
  const machine = ready();
  return machine.call('dungdapple_divisor', ...lendPlan(machine, given));
}

export function reach(plan) {
  const given = planOf(plan);
  return reachOf(ready(), given);
}

export function planFor(sigmaHundredths, passes, inner) {
  const given = [sigmaHundredths, passes, inner].map(numberOf);
  const machine = ready();
  const number = machine.ask('dungdapple_plan_for', ...given, numberAt(0), numberAt(1));
  return { number, position: 0, radius: wholeAnswered(machine, 0), edge: wholeAnswered(machine, 1) };
}

// An edit, and a point.

// The rows that an edit at this position may move: from the first to behind the last.
export function rowsWithin(distance, position, length) {
  return { from: Math.max(0, position - distance), to: Math.min(length, position + distance + 1) };
}

// Writes the sample, then the results within reach; nothing else can have changed. The results are out of the
// module's memory by then, since writing to an Array may run code of the caller.
function editBack(machine, plan, position, sample, samples, results) {
  const { from, to } = rowsWithin(reachOf(machine, plan), position, results.length);
  const moved = resultsFrom(machine, results, from, to - from);
  samples[position] = sample;
  copy(results, moved, from);
}

export function editSeries(plan, bound, position, value, samples, results) {
  expect(SMOOTHING, { samples, results });
  const head = ofSeries(plan, bound);
  const [at, to] = [numberOf(position), numberOf(value)];
  const [raw, smooth] = [read(samples), read(results)];
  const machine = ready();
  const slices = [...lendSamples(machine, raw), ...lendResults(machine, smooth)];
  const first = [...lendHead(machine, head), at, to];
  const number = machine.ask('dungdapple_edit_series', ...first, ...slices, numberAt(0), numberAt(1), numberAt(2));
  const [place, count, bad] = [0, 1, 2].map((n) => wholeAnswered(machine, n));
  if (number === 0) {
    const written = tagOf(samples) === undefined ? samples : raw;
    editBack(machine, head.plans[0], at, sampleIn(machine, at), written, smooth);
  }
  return { number, position: place, count, bad };
}

export function point(plan, bound, position, samples) {
  expect({ samples: SAMPLES }, { samples });
  const head = ofSeries(plan, bound);
  const at = numberOf(position);
  const raw = read(samples);
  const machine = ready();
  const slice = lendSamples(machine, raw);
  const first = [...lendHead(machine, head), at];
  const number = machine.ask('dungdapple_point', ...first, ...slice, numberAt(0), numberAt(1), numberAt(2));
  const [place, bad] = [1, 2].map((n) => wholeAnswered(machine, n));
  return { number, position: place, bad, value: doubleAnswered(machine, 0) };
}

// Doubles in.

export function doublesIn(bound, doubles, samples) {
  expect({ doubles: DOUBLES, samples: WHOLE }, { doubles, samples });
  const most = numberOf(bound);
  const [from, to] = [read(doubles), read(samples)];
  const machine = ready();
  const slices = [...lendDoubles(machine, from), ...lendCells(to)];
  const number = machine.ask('dungdapple_doubles_in', most, ...slices, numberAt(0), numberAt(1));
  if (number === 0) cellsBack(machine, to);
  return { number, position: wholeAnswered(machine, 0), bad: wholeAnswered(machine, 1) };
}

// Results out: as whole numbers, as whole numbers that add up, as doubles, and their lowest and highest.

const WHOLE_OUT = { results: RESULTS, cells: WHOLE };
const DOUBLES_OUT = { results: RESULTS, cells: QUOTIENTS };

function whole(head, mode, results, cells) {
  const half = numberOf(mode);
  const [from, to] = [read(results), read(cells)];
  const machine = ready();
  const slices = [...lendResults(machine, from), ...lendCells(to)];
  const first = [...lendHead(machine, head), half];
  const number = machine.ask(`dungdapple_whole_${head.kind}`, ...first, ...slices, numberAt(0));
  if (number === 0) cellsBack(machine, to);
  return { number, position: wholeAnswered(machine, 0) };
}

export function wholeSeries(plan, bound, mode, results, cells) {
  expect(WHOLE_OUT, { results, cells });
  return whole(ofSeries(plan, bound), mode, results, cells);
}

export function wholePicture(plans, bound, sizes, mode, results, cells) {
  expect(WHOLE_OUT, { results, cells });
  return whole(ofPicture(plans, bound, sizes), mode, results, cells);
}

function carry(head, results, cells) {
  const [from, to] = [read(results), read(cells)];
  const machine = ready();
  const slices = [...lendResults(machine, from), ...lendCells(to)];
  const call = `dungdapple_carry_${head.kind}`;
  const number = machine.ask(call, ...lendHead(machine, head), ...slices, numberAt(0), numberAt(1));
  if (number === 0) cellsBack(machine, to);
  return { number, position: wholeAnswered(machine, 0), carry: doubleAnswered(machine, 1) };
}

export function carrySeries(plan, bound, results, cells) {
  expect(WHOLE_OUT, { results, cells });
  return carry(ofSeries(plan, bound), results, cells);
}

export function carryPicture(plans, bound, sizes, results, cells) {
  expect(WHOLE_OUT, { results, cells });
  return carry(ofPicture(plans, bound, sizes), results, cells);
}

function quotients(head, results, cells) {
  const [from, to] = [read(results), read(cells)];
  const machine = ready();
  const slices = [...lendResults(machine, from), ...lendQuotients(to)];
  const call = `dungdapple_doubles_${head.kind}`;
  const number = machine.ask(call, ...lendHead(machine, head), ...slices, numberAt(0));
  if (number === 0) quotientsBack(machine, to);
  return { number, position: wholeAnswered(machine, 0) };
}

export function doublesSeries(plan, bound, results, cells) {
  expect(DOUBLES_OUT, { results, cells });
  return quotients(ofSeries(plan, bound), results, cells);
}

export function doublesPicture(plans, bound, sizes, results, cells) {
  expect(DOUBLES_OUT, { results, cells });
  return quotients(ofPicture(plans, bound, sizes), results, cells);
}

function summary(head, results) {
  const from = read(results);
  const machine = ready();
  const slice = lendResults(machine, from);
  const answered = [0, 1, 2, 3, 4].map(numberAt);
  const number = machine.ask(`dungdapple_summary_${head.kind}`, ...lendHead(machine, head), ...slice, ...answered);
  const [lowest, highest] = [1, 2].map((n) => doubleAnswered(machine, n));
  const [position, lowestAt, highestAt] = [0, 3, 4].map((n) => wholeAnswered(machine, n));
  return { number, position, lowest, highest, lowestAt, highestAt };
}

export function summarySeries(plan, bound, results) {
  expect({ results: RESULTS }, { results });
  return summary(ofSeries(plan, bound), results);
}

export function summaryPicture(plans, bound, sizes, results) {
  expect({ results: RESULTS }, { results });
  return summary(ofPicture(plans, bound, sizes), results);
}

// Exact results as doubles, and back.

export function resultsToDoubles(results, cells) {
  expect(DOUBLES_OUT, { results, cells });
  const [from, to] = [read(results), read(cells)];
  const machine = ready();
  const slices = [...lendResults(machine, from), ...lendQuotients(to)];
  const number = machine.ask('dungdapple_results_to_doubles', ...slices, numberAt(0));
  if (number === 0) quotientsBack(machine, to);
  return { number, position: wholeAnswered(machine, 0) };
}

export function doublesToResults(doubles, results) {
  expect({ doubles: DOUBLES, results: RESULTS }, { doubles, results });
  const [from, to] = [read(doubles), read(results)];
  const machine = ready();
  const slices = [...lendDoubles(machine, from), ...lendEmptyResults(to)];
  const number = machine.ask('dungdapple_doubles_to_results', ...slices, numberAt(0), numberAt(1));
  const answer = { number, position: wholeAnswered(machine, 0), bad: wholeAnswered(machine, 1) };
  if (number === 0) resultsBack(machine, to);
  return answer;
}
