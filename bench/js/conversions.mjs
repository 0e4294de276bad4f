// Doubles in, the outputs, exact results as doubles and back, and a job record read. The package copies its slices.
import {
  EVEN, UPWARD, carrySeries, divisor, doublesIn, doublesSeries, doublesToResults, readRecord, recordSize,
  resultsToDoubles, smoothSeries, summarySeries, wholeSeries, writeRecord,
} from '../../hosts/js/dungdapple.mjs';
import { done, measured } from './harness.mjs';
import * as byHand from './outputs.mjs';

// Both ways to do a measure, each into the slice that is saved.
function both(work, name, slice, ours, plain) {
  const start = () => slice.set(new slice.constructor(slice.length));
  const saved = () => slice;
  measured(work, { name, cells: work.n }, [
    { name: 'js-ours', start, run: ours, saved },
    { name: 'js-plain', start, run: plain, saved },
  ]);
}

export function outputMeasures(work) {
  const { plan, bound, n, samples } = work;
  const under = divisor(plan);
  const [whole, cells, summary] = [new Int32Array(n), new Float64Array(n), new Float64Array(4)];
  const [results, exact, doubles] = [new BigInt64Array(n), new BigInt64Array(n), new Float64Array(n)];
  done(smoothSeries(plan, bound, samples, results));
  done(smoothSeries(plan, bound, samples, doubles));
  const taken = (given) => [
    () => done(doublesIn(bound, given, whole)),
    () => byHand.doublesIn(bound, given, whole),
  ];
  both(work, 'doubles_in_mixed', whole, ...taken(Float64Array.from(samples)));
  both(work, 'doubles_in_one_sign', whole, ...taken(Float64Array.from(samples, Math.abs)));
  both(work, 'doubles', cells,
    () => done(doublesSeries(plan, bound, results, cells)),
    () => byHand.doublesOut(under, doubles, cells));
  both(work, 'whole_even', whole,
    () => done(wholeSeries(plan, bound, EVEN, results, whole)),
    () => byHand.wholeEven(under, doubles, whole));
  both(work, 'whole_upward', whole,
    () => done(wholeSeries(plan, bound, UPWARD, results, whole)),
    () => byHand.wholeUpward(under, doubles, whole));
  both(work, 'carry', whole,
    () => done(carrySeries(plan, bound, results, whole)),
    () => byHand.carryOut(under, doubles, whole));
  both(work, 'summary', summary,
    () => {
      const { lowest, highest, lowestAt, highestAt } = done(summarySeries(plan, bound, results));
      summary.set([lowest, highest, lowestAt, highestAt]);
    },
    () => summary.set(byHand.summaryOut(under, doubles)));
  both(work, 'results_to_doubles', cells,
    () => done(resultsToDoubles(results, cells)),
    () => {
      for (let i = 0; i < n; i += 1) cells[i] = Number(results[i]);
    });
  both(work, 'doubles_to_results', exact,
    () => done(doublesToResults(doubles, exact)),
    () => {
      for (let i = 0; i < n; i += 1) exact[i] = BigInt(doubles[i]);
    });
}

export function recordMeasures(work) {
  const { plan, bound, n, samples } = work;
  const record = new Uint8Array(recordSize(n));
  const whole = new Int32Array(n);
  done(writeRecord(plan, bound, samples, record));
  both(work, 'read_record', whole,
    () => whole.set(done(readRecord(record)).samples),
    () => whole.set(byHand.readSamples(record)));
}
