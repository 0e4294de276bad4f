// Stored series: many in one memory, made, edited and freed in any order; what they say of themselves; what is given
// back.
import { setFlagsFromString } from 'node:v8';
import { setImmediate as turn } from 'node:timers/promises';
import { runInNewContext } from 'node:vm';
import { anyBound, anyPlan, anySamples, chance, pick } from '../../../reference/inputs.mjs';
import { reachOf, seriesResults } from '../../../reference/smoothing.mjs';
import { Blocks } from '../blocks.mjs';
import { StoredSeries, smoothSeries } from '../dungdapple.mjs';
import { ready } from '../memory.mjs';
import { holds, same, tell, throws } from './counting.mjs';

const PLAN = { radius: 1, inner: 2, edge: 1, passes: 1 };
const below = chance(31);
const numbers = (slice) => Array.from(slice, Number);
const memory = () => ready().views.u8.length;

// A series and what it must be, kept beside it. Short ones are compared with the definition.

function anyLength() {
  return pick(below, [1, 1 + below(9), 1 + below(60), 1 + below(3_000)]);
}

function made(length = anyLength()) {
  const plan = anyPlan(below, 1 + below(3));
  const bound = anyBound(below, plan);
  const samples = anySamples(below, length, bound);
  return { plan, bound, samples, series: new StoredSeries(plan, bound, samples) };
}

function wantedResults({ plan, bound, samples }) {
  if (samples.length < 60) return seriesResults(plan, samples);
  const results = new Float64Array(samples.length);
  smoothSeries(plan, bound, samples, results);
  return numbers(results);
}

function isWhole(name, each) {
  const { series, samples } = each;
  const wanted = wantedResults(each);
  same(`${name}: samples`, numbers(series.samples), samples);
  same(`${name}: results`, numbers(series.results), wanted);
  same(`${name}: results64`, numbers(series.results64), wanted);
  const at = below(samples.length);
  same(`${name}: a row`, [series.sampleAt(at), series.resultAt(at)], [samples[at], wanted[at]]);
  same(`${name}: length`, series.length, samples.length);
}

function edited(each) {
  const { plan, bound, samples, series } = each;
  const [at, value] = [below(samples.length), anySamples(below, 1, bound)[0]];
  const moves = value !== samples[at];
  const distance = reachOf(plan);
  const [from, to] = moves ? [Math.max(0, at - distance), Math.min(samples.length, at + distance + 1)] : [0, 0];
  same('edit', series.edit(at, value), { number: 0, position: 0, count: to - from, bad: 0, from, to });
  samples[at] = value;
}

function interleaved() {
  const all = [];
  for (let n = 0; n < 3_000; n += 1) {
    const step = below(10);
    if (all.length === 0 || (step < 3 && all.length < 60)) all.push(made());
    else if (step < 5) {
      const [gone] = all.splice(below(all.length), 1);
      isWhole('before it is freed', gone);
      gone.series.free();
    } else edited(pick(below, all));
  }
  all.forEach((each) => isWhole('at the end', each));
  all.forEach(({ series }) => series.free());
}

// What is freed is used again: many made and freed take no more memory than the most that were there at once.
function givenBack() {
  const lengths = [1, 7, 100, 65_536, 3_000, 12];
  const round = () => lengths.map((length) => new StoredSeries(PLAN, 9, new Int32Array(length)));
  const first = round();
  first.forEach((series) => series.free());
  const bytes = memory();
  for (let n = 0; n < 10_000; n += 1) new StoredSeries(PLAN, 9, [1, 2, 3]).free();
  for (let n = 0; n < 100; n += 1) {
    const all = round();
    while (all.length > 0) all.splice(below(all.length), 1)[0].free();
  }
  same('memory after 10,000 series', memory(), bytes);
}

// The stretches that are handed out never overlap, and all that is given back is one stretch again.
function blockFacts() {
  const blocks = new Blocks();
  const [start, size] = [1_024, 2 ** 20];
  blocks.give(start, size);
  const taken = [];
  for (let n = 0; n < 5_000; n += 1) {
    if (below(2) === 0) {
      const bytes = 1 + below(9_000);
      const at = blocks.take(bytes);
      if (at !== null) taken.push({ at, end: at + bytes });
      if (at !== null) {
        const clashes = taken.filter((each) => each.at < at + bytes && at < each.end);
        holds('blocks: apart', clashes.length === 1);
        holds('blocks: in place and aligned', at >= start && at + bytes <= start + size && at % 16 === 0);
      }
    } else if (taken.length > 0) {
      const [{ at, end }] = taken.splice(below(taken.length), 1);
      blocks.give(at, end - at);
    }
  }
  same('blocks: none is left for more than is free', blocks.take(size), null);
  taken.forEach(({ at, end }) => blocks.give(at, end - at));
  same('blocks: one stretch again', blocks.take(size), start);
  same('blocks: and nothing beside it', blocks.take(1), null);
}

// Those that are forgotten are given back by the collector: more are made here than the memory has room for at the
// end. Those that were freed are not given back a second time.
async function forgotten() {
  setFlagsFromString('--expose-gc');
  const collect = async () => {
    runInNewContext('gc()');
    await turn();
    await turn();
  };
  const samples = new Int32Array(65_536);
  for (let n = 0; n < 60; n += 1) {
    for (let each = 0; each < 4; each += 1) new StoredSeries(PLAN, 9, samples);
    await collect();
  }
  holds('memory after series that were forgotten', memory() < 2 ** 27, memory());
  for (let n = 0; n < 50; n += 1) new StoredSeries(PLAN, 9, samples.subarray(0, 1 + n)).free();
  const first = Array.from({ length: 50 }, (_, n) => made(1 + n));
  await collect();
  const second = Array.from({ length: 50 }, (_, n) => made(1 + n));
  [...first, ...second].forEach((each) => isWhole('after freed ones were collected', each));
  [...first, ...second].forEach(({ series }) => series.free());
}

function refused() {
  const bytes = memory();
  const cases = [
    [{ ...PLAN, radius: -1 }, 9, [1, 2, 3], { number: 2, position: 0, bad: 0 }],
    [PLAN, 'nine', [1, 2, 3], { number: 5, position: 0, bad: 0 }],
    [PLAN, 9, [], { number: 7, position: 0, bad: 0 }],
    [PLAN, 9, new Int32Array(1_000_000), { number: 7, position: 0, bad: 0 }],
    [PLAN, 9, [1, 10, NaN], { number: 11, position: 1, bad: 2 }],
    [null, 9, [1], { number: 1, position: 0, bad: 0 }],
  ];
  for (const [plan, bound, samples, answer] of cases) {
    const series = new StoredSeries(plan, bound, samples);
    same('refused: answer', series.answer, answer);
    same('refused: edit', series.edit(0, 1), { ...answer, count: 0, from: 0, to: 0 });
    same('refused: rows', [series.samples, series.results, series.results64],
      [new Int32Array(0), new Float64Array(0), new BigInt64Array(0)]);
    same('refused: a row', [series.length, series.sampleAt(0), series.resultAt(0)], [0, undefined, undefined]);
    series.free();
    throws('refused and freed', Error, 'freed', () => series.edit(0, 1));
  }
  same('refused: memory', memory(), bytes);
  throws('no slice', TypeError, 'expected', () => new StoredSeries(PLAN, 9, new Uint8Array(3)));
  throws('results for samples', TypeError, 'expected', () => new StoredSeries(PLAN, 9, new BigInt64Array(3)));
}

function byItself() {
  const given = Int32Array.of(8, 0, 0);
  const series = new StoredSeries(PLAN, 9, given);
  same('answer', series.answer, { number: 0, position: 0, bad: 0 });
  series.answer.number = 5;
  given[0] = 1;
  series.samples[0] = 3;
  series.results[0] = 3;
  same('is not written from outside', [series.answer.number, numbers(series.samples), numbers(series.results)],
    [0, [8, 0, 0], [32, 24, 8]]);
  const rows = ({ number, count, from, to }) => [number, count, from, to];
  same('the same value', rows(series.edit(0, 8)), [0, 0, 0, 0]);
  same('minus zero', rows(series.edit(-0, -0)), [0, 3, 0, 3]);
  same('minus zero is 0', series.sampleAt(-0), 0);
  const bad = [[3, 1, 9], [-1, 1, 9], [0.5, 1, 9], ['0', 1, 9], [0, 10, 10], [0, 0.5, 10], [0, '1', 10]];
  for (const [position, value, number] of bad) {
    same(`edit ${position} ${value}`, rows(series.edit(position, value)), [number, 0, 0, 0]);
  }
  same('after what was refused', [numbers(series.samples), numbers(series.results)], [[0, 0, 0], [0, 0, 0]]);
  for (const at of [3, -1, 0.5, NaN, '0', null, undefined, 2 ** 32]) {
    same(`row ${at}`, [series.sampleAt(at), series.resultAt(at)], [undefined, undefined]);
  }
  series.free();
  const other = new StoredSeries(PLAN, 9, [1, 2, 3]);
  series.free();
  const third = new StoredSeries(PLAN, 9, [4, 5, 6]);
  same('freed twice', [numbers(other.samples), numbers(third.samples)], [[1, 2, 3], [4, 5, 6]]);
  for (const name of ['samples', 'results', 'results64']) {
    throws(`freed: ${name}`, Error, 'freed', () => series[name]);
  }
  for (const name of ['edit', 'sampleAt', 'resultAt']) {
    throws(`freed: ${name}`, Error, 'freed', () => series[name](0, 1));
  }
  same('freed: answer', [series.answer.number, series.length], [0, 0]);
  throws('without new', TypeError, 'new', () => StoredSeries(PLAN, 9, [1]));
  // a getter that makes another series first
  const plan = { ...PLAN, get radius() { new StoredSeries(PLAN, 9, new Int32Array(50_000).fill(9)); return 1; } };
  same('a getter that stores', numbers(new StoredSeries(plan, 9, [8, 0, 0]).results), [32, 24, 8]);
}

blockFacts();
byItself();
refused();
interleaved();
givenBack();
await forgotten();
tell();
