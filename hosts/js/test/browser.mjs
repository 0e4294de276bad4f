// What try-browser.mjs runs, in a browser's page, in its worker and in node: some calls, and what they answer, as
// text.
import {
  EVEN, StoredSeries, carrySeries, divisor, editSeries, explain, planFor, point, readRecord, recordSize, reach,
  resultsToDoubles, smoothPicture, smoothSeries, summarySeries, wholeSeries, writeRecord,
} from '../dungdapple.mjs';

const PLAN = { radius: 1, inner: 2, edge: 1, passes: 1 };
const DOWN = { radius: 0, inner: 3, edge: 1, passes: 1 };

function long() {
  const samples = Int32Array.from({ length: 65_536 }, (_, n) => (n * 7_919) % 2_001 - 1_000);
  const results = new Float64Array(samples.length);
  const { number } = smoothSeries({ ...PLAN, radius: 100, passes: 3 }, 1_000, samples, results);
  return [number, results.reduce((sum, result, n) => (sum * 31 + result + n) % 1_000_003, 7)];
}

export function said() {
  const samples = [8, 0, 0];
  const [results, exact, cells] = [new BigInt64Array(3), new Float64Array(3), new Int32Array(3)];
  const series = new StoredSeries(PLAN, 9, samples);
  const bytes = new Uint8Array(recordSize(3));
  const all = [
    smoothSeries(PLAN, 9, samples, results), resultsToDoubles(results, exact), [...exact],
    editSeries(PLAN, 9, 2, -9, samples, exact), samples, [...exact],
    smoothSeries(PLAN, 9, [0, 0.5, 10], exact), smoothSeries(null, 'nine', [1], exact), explain(5),
    smoothPicture({ across: PLAN, down: DOWN }, 9, { width: 3, height: 1 }, samples, exact), [...exact],
    wholeSeries(PLAN, 9, EVEN, results, cells), [...cells], carrySeries(PLAN, 9, results, cells), [...cells],
    summarySeries(PLAN, 9, results), point(PLAN, 9, 1, samples), planFor(500, 3, 16), divisor(PLAN), reach(PLAN),
    writeRecord(PLAN, 9, samples, bytes), [...readRecord(bytes).samples],
    series.edit(1, 5), [...series.samples], [...series.results], long(),
  ];
  series.free();
  return JSON.stringify(all);
}
