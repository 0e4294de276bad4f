// The calls of the library: limits, refusals, and the answer with the content of each slice afterwards.
// Every call takes its arguments by name and gives a new object; it writes to none of the slices it was lent.
// Whole numbers are BigInt, since any 64-bit number may be asked; a plain number in an answer is a double.
// Samples and whole cells are Int32Array, results and work BigInt64Array, doubles Float64Array.
import {
  MOST_BOUND, MOST_CELLS, MOST_INNER, MOST_MODE, MOST_PASSES, MOST_PRODUCT, MOST_RADIUS, MOST_RESULT, MOST_SIDE,
  MOST_SIGMA, outside, size,
} from './limits.mjs';
import {
  divisorOf, kernelOf, pictureResults, planFor, reachOf, resultAt, seriesResults, weightAt,
} from './smoothing.mjs';

const DONE = { number: 0n, position: 0n, bad: 0n };

function refuse(number, position = 0, bad = 0) {
  return { number: BigInt(number), position: BigInt(position), bad: BigInt(bad) };
}

function refuseIf(applies, number) {
  return applies ? refuse(number) : null;
}

// Refusals. Each gives null when its numbers do not apply. A call chains them with ??, in the order of the numbers,
// so that the lowest number that applies is given.

function passesRefused(plans) {
  return refuseIf(plans.some((plan) => outside(plan.passes, 1n, MOST_PASSES)), 1);
}

function innerRefused(plans) {
  return refuseIf(plans.some((plan) => outside(plan.inner, 1n, MOST_INNER)), 3);
}

function plansRefused(plans) {
  return passesRefused(plans)
    ?? refuseIf(plans.some((plan) => plan.radius > MOST_RADIUS), 2)
    ?? innerRefused(plans)
    ?? refuseIf(plans.some((plan) => plan.edge >= plan.inner), 4);
}

function boundRefused(bound) {
  return refuseIf(outside(bound, 1n, MOST_BOUND), 5);
}

export function divisorOfAll(plans) {
  return plans.reduce((product, plan) => product * divisorOf(plan), 1n);
}

function limitsRefused(plans, bound) {
  return plansRefused(plans)
    ?? boundRefused(bound)
    ?? refuseIf(bound * divisorOfAll(plans) > MOST_PRODUCT, 6);
}

function lengthRefused(length) {
  return refuseIf(outside(BigInt(length), 1n, MOST_CELLS), 7);
}

function sidesRefused(width, height) {
  return refuseIf(outside(width, 1n, MOST_SIDE) || outside(height, 1n, MOST_SIDE), 7)
    ?? refuseIf(width * height > MOST_CELLS, 7);
}

function slicesRefused(length, ...slices) {
  return refuseIf(slices.some((slice) => slice.length !== Number(length)), 8);
}

function firstIndex(from, to, offends) {
  for (let index = from; index <= to; index++) {
    if (offends(index)) return index;
  }
  return null;
}

function firstRefused(number, from, to, offends) {
  const index = firstIndex(from, to, offends);
  return index === null ? null : refuse(number, index);
}

// The first bad one among those tested, and how many there are.
function badRefused(from, to, bad) {
  const found = [];
  for (let n = from; n <= to; n++) {
    if (bad(n)) found.push(n);
  }
  return found.length === 0 ? null : refuse(11, found[0], found.length);
}

function samplesRefused(samples, bound, from = 0, to = samples.length - 1) {
  return badRefused(from, to, (n) => size(BigInt(samples[n])) > bound);
}

function resultsRefused(results, most) {
  return firstRefused(12, 0, results.length - 1, (n) => size(results[n]) > most);
}

// The indices within reach of `centre`, among `length`.
function stretch(plan, length, centre) {
  const reach = reachOf(plan);
  return [Math.max(0, centre - reach), Math.min(length - 1, centre + reach)];
}

function zeros(work) {
  return new BigInt64Array(work.length);
}

function wholeResults(sums) {
  return BigInt64Array.from(sums, (sum) => BigInt(sum));
}

// Smoothing.

export function smoothSeries({ plan, bound, samples, results, work }) {
  const refused = limitsRefused([plan], bound)
    ?? lengthRefused(samples.length)
    ?? slicesRefused(samples.length, results, work)
    ?? samplesRefused(samples, bound);
  if (refused) return { ...refused, results, work };
  return { ...DONE, results: wholeResults(seriesResults(plan, samples)), work: zeros(work) };
}

export function smoothPicture({ across, down, bound, width, height, samples, results, work }) {
  const refused = limitsRefused([across, down], bound)
    ?? sidesRefused(width, height)
    ?? slicesRefused(width * height, samples, results, work)
    ?? samplesRefused(samples, bound);
  if (refused) return { ...refused, results, work };
  const picture = { samples, width: Number(width), height: Number(height) };
  return { ...DONE, results: wholeResults(pictureResults(across, down, picture)), work: zeros(work) };
}

// Edit. Its results are BigInt of any size until number 12 has been ruled out.

function resultsAfterEdit(plan, length, p, change, results) {
  const kernel = kernelOf(plan);
  const [from, to] = stretch(plan, length, p);
  const after = Array.from(results);
  for (let n = from; n <= to; n++) {
    after[n] += change * BigInt(weightAt(kernel, length, p, n));
  }
  return after;
}

function editRefused({ plan, bound, position, value, samples, results, work }) {
  return limitsRefused([plan], bound)
    ?? lengthRefused(samples.length)
    ?? slicesRefused(samples.length, results)
    ?? slicesRefused(2 * samples.length, work)
    ?? refuseIf(position >= BigInt(samples.length), 9)
    ?? refuseIf(size(value) > bound, 10)
    ?? samplesRefused(samples, bound, Number(position), Number(position));
}

export function edit({ plan, bound, position, value, samples, results, work }) {
  const refused = editRefused({ plan, bound, position, value, samples, results, work });
  if (refused) return { ...refused, count: 0n, samples, results, work };

  const p = Number(position);
  const change = value - BigInt(samples[p]);
  const after = resultsAfterEdit(plan, samples.length, p, change, results);
  const most = bound * divisorOf(plan);
  const tooLarge = firstRefused(12, ...stretch(plan, samples.length, p),
    (n) => size(results[n]) > most || size(after[n]) > most);
  if (tooLarge) return { ...tooLarge, count: 0n, samples, results, work };

  const edited = samples.slice();
  edited[p] = Number(value);
  const changed = after.filter((result, n) => result !== results[n]);
  return { ...DONE, count: BigInt(changed.length), samples: edited, results: wholeResults(after), work: zeros(work) };
}

export function point({ plan, bound, position, samples, work }) {
  const n = Number(position);
  const refused = limitsRefused([plan], bound)
    ?? lengthRefused(samples.length)
    ?? slicesRefused(2 * samples.length, work)
    ?? refuseIf(position >= BigInt(samples.length), 9)
    ?? samplesRefused(samples, bound, ...stretch(plan, samples.length, n));
  if (refused) return { ...refused, value: 0, work };
  const result = BigInt(resultAt(kernelOf(plan), samples, n));
  return { ...DONE, value: asDouble(result, divisorOf(plan)), work: zeros(work) };
}

// Radius found above 1,023 (number 15) cannot occur: sigma is at most 256, so r(r+1) is at most 196,608, r at most 442
// and the radius answered at most 443. It is tested all the same.
export function planner({ sigma, passes, inner }) {
  const refused = passesRefused([{ passes }])
    ?? innerRefused([{ inner }])
    ?? refuseIf(outside(sigma, 1n, MOST_SIGMA), 13);
  if (refused) return { ...refused, radius: 0n, edge: 0n };
  const found = planFor(sigma, passes, inner);
  if (found.radius > MOST_RADIUS) return { ...refuse(15), radius: 0n, edge: 0n };
  return { ...DONE, ...found };
}

// How many sigmas there are; number, radius and edge weight of each from 1 on, one after the other.
export function plannerOfAll({ passes, inner }) {
  const sigmas = Array.from({ length: Number(MOST_SIGMA) }, (_, n) => BigInt(n + 1));
  const planned = sigmas.map((sigma) => planner({ sigma, passes, inner }));
  const numbers = planned.flatMap(({ number, radius, edge }) => [number, radius, edge]);
  return { count: MOST_SIGMA, planned: BigUint64Array.from(numbers) };
}

// A plan by itself. Its divisor and its reach are 0 where it is refused under every bound; the least bound is 1.
export function planByItself({ plan }) {
  if (limitsRefused([plan], 1n)) return { divisor: 0n, reach: 0n };
  return { divisor: divisorOf(plan), reach: BigInt(reachOf(plan)) };
}

// Doubles in.

function acceptable(double, most) {
  return Number.isInteger(double) && Math.abs(double) <= Number(most);
}

function doublesRefused(doubles, most) {
  return badRefused(0, doubles.length - 1, (n) => !acceptable(doubles[n], most));
}

export function doublesIn({ bound, doubles, samples }) {
  const refused = boundRefused(bound)
    ?? lengthRefused(doubles.length)
    ?? slicesRefused(doubles.length, samples)
    ?? doublesRefused(doubles, bound);
  if (refused) return { ...refused, samples };
  return { ...DONE, samples: Int32Array.from(doubles) };
}

// Results to doubles and back, each the same number. A BigInt zero has no sign, so minus zero comes back as plus zero.

export function resultsToDoubles({ results, cells }) {
  const refused = lengthRefused(results.length)
    ?? slicesRefused(results.length, cells)
    ?? resultsRefused(results, MOST_RESULT);
  if (refused) return { ...refused, cells };
  return { ...DONE, cells: Float64Array.from(results, (result) => Number(result)) };
}

export function doublesToResults({ doubles, results }) {
  const refused = lengthRefused(doubles.length)
    ?? slicesRefused(doubles.length, results)
    ?? doublesRefused(doubles, MOST_RESULT);
  if (refused) return { ...refused, results };
  return { ...DONE, results: wholeResults(doubles) };
}

// The outputs.

function floorOfQuotient(over, under) {
  const quotient = over / under;
  return over < quotient * under ? quotient - 1n : quotient;
}

// The nearest whole number. Of two as near, mode 0 takes the even one and mode 1 the one above.
export function asWhole(result, divisor, mode) {
  const below = floorOfQuotient(result, divisor);
  const above = below + 1n;
  const [farBelow, farAbove] = [below, above].map((whole) => size(result - whole * divisor));
  if (farBelow === farAbove) return Number(mode === 1n || above % 2n === 0n ? above : below);
  return Number(farBelow < farAbove ? below : above);
}

// Both numbers are below 2^53 and so converted exactly; a BigInt zero has no sign.
export function asDouble(result, divisor) {
  return Number(result) / Number(divisor);
}

function asSummary(results, divisor) {
  let [lowest, highest] = [0, 0];
  results.forEach((result, n) => {
    if (result < results[lowest]) lowest = n;
    if (result > results[highest]) highest = n;
  });
  return {
    lowest: asDouble(results[lowest], divisor),
    highest: asDouble(results[highest], divisor),
    indexOfLowest: BigInt(lowest),
    indexOfHighest: BigInt(highest),
  };
}

// Whole numbers that add up: what a cell leaves over is carried on to the next, and the last carry is answered.
function asCarried(results, divisor) {
  let carry = 0n;
  const cells = Int32Array.from(results, (result) => {
    const sum = result + carry;
    const cell = floorOfQuotient(sum, divisor);
    carry = sum - cell * divisor;
    return Number(cell);
  });
  return { carry, cells };
}

const EMPTY_SUMMARY = { lowest: 0, highest: 0, indexOfLowest: 0n, indexOfHighest: 0n };

// An output's refusal for a series (cells is absent in a summary) and for a picture.
function seriesOutputRefused({ plan, bound, results, cells }) {
  return limitsRefused([plan], bound)
    ?? lengthRefused(results.length)
    ?? slicesRefused(results.length, ...(cells ? [cells] : []))
    ?? resultsRefused(results, bound * divisorOf(plan));
}

function pictureOutputRefused({ across, down, bound, width, height, results, cells }) {
  return limitsRefused([across, down], bound)
    ?? sidesRefused(width, height)
    ?? slicesRefused(width * height, results, ...(cells ? [cells] : []))
    ?? resultsRefused(results, bound * divisorOfAll([across, down]));
}

function cellsOut(refused, { results, cells }, divisor, convert) {
  if (refused) return { ...refused, cells };
  const filled = cells.slice();
  results.forEach((result, n) => { filled[n] = convert(result, divisor); });
  return { ...DONE, cells: filled };
}

function summaryOut(refused, results, divisor) {
  return refused ? { ...refused, ...EMPTY_SUMMARY } : { ...DONE, ...asSummary(results, divisor) };
}

function carryOut(refused, { results, cells }, divisor) {
  return refused ? { ...refused, carry: 0n, cells } : { ...DONE, ...asCarried(results, divisor) };
}

// Whole numbers out. A form of the call without a mode means mode 0.
function wholeOut(refused, args, divisor) {
  const { mode = 0n } = args;
  return cellsOut(refused, args, divisor, (result) => asWhole(result, divisor, mode));
}

function modeRefused({ mode = 0n }) {
  return refuseIf(mode > MOST_MODE, 21);
}

export function wholeSeries(args) {
  const refused = seriesOutputRefused(args) ?? modeRefused(args);
  return wholeOut(refused, args, refused ? null : divisorOf(args.plan));
}

export function doublesSeries(args) {
  const refused = seriesOutputRefused(args);
  return cellsOut(refused, args, refused ? null : divisorOf(args.plan), asDouble);
}

export function summarySeries(args) {
  const refused = seriesOutputRefused(args);
  return summaryOut(refused, args.results, refused ? null : divisorOf(args.plan));
}

export function carrySeries(args) {
  const refused = seriesOutputRefused(args);
  return carryOut(refused, args, refused ? null : divisorOf(args.plan));
}

export function wholePicture(args) {
  const refused = pictureOutputRefused(args) ?? modeRefused(args);
  return wholeOut(refused, args, refused ? null : divisorOfAll([args.across, args.down]));
}

export function doublesPicture(args) {
  const refused = pictureOutputRefused(args);
  return cellsOut(refused, args, refused ? null : divisorOfAll([args.across, args.down]), asDouble);
}

export function summaryPicture(args) {
  const refused = pictureOutputRefused(args);
  return summaryOut(refused, args.results, refused ? null : divisorOfAll([args.across, args.down]));
}

export function carryPicture(args) {
  const refused = pictureOutputRefused(args);
  return carryOut(refused, args, refused ? null : divisorOfAll([args.across, args.down]));
}
