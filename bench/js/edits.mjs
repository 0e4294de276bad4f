// An edit and a point. Edits go round the same places and set one value, then another, so that each moves results.
import { StoredSeries, divisor, editSeries, point, reach, smoothSeries } from '../../hosts/js/dungdapple.mjs';
import { SPREAD, done, measured } from './harness.mjs';
import * as byTaps from './taps.mjs';

// The places and values of one program's edits, from the start again where it is asked.
function round({ n, bound }) {
  let next = 0;
  return {
    restart: () => {
      next = 0;
    },
    step: () => {
      const place = next % SPREAD;
      const value = Math.trunc(next / SPREAD) % 2 === 0 ? bound : -bound;
      next += 1;
      return { place, position: (7919 * place + 13) % n, value };
    },
  };
}

function stored({ plan, bound, samples, ...work }) {
  const { restart, step } = round({ bound, ...work });
  let series = new StoredSeries(plan, bound, samples);
  return {
    name: 'js-ours-resident',
    start: () => {
      restart();
      series.free();
      series = new StoredSeries(plan, bound, samples);
    },
    run: () => {
      const { position, value } = step();
      done(series.edit(position, value));
    },
    saved: () => series.results64,
  };
}

function copied({ plan, bound, samples, ...work }) {
  const { restart, step } = round({ bound, ...work });
  const own = samples.slice();
  const results = new BigInt64Array(own.length);
  const start = () => {
    restart();
    own.set(samples);
    done(smoothSeries(plan, bound, own, results));
  };
  start();
  return {
    name: 'js-ours-int32',
    start,
    run: () => {
      const { position, value } = step();
      done(editSeries(plan, bound, position, value, own, results));
    },
    saved: () => results,
  };
}

function tapped({ plan, bound, samples, ...work }) {
  const { restart, step } = round({ bound, ...work });
  const taps = byTaps.tapsOf(plan, reach(plan));
  const own = Float64Array.from(samples);
  const results = new Float64Array(own.length);
  const start = () => {
    restart();
    own.set(samples);
    done(smoothSeries(plan, bound, own, results));
  };
  start();
  return {
    name: 'js-taps',
    start,
    run: () => {
      const { position, value } = step();
      byTaps.edit(taps, position, value, own, results);
    },
    saved: () => BigInt64Array.from(results, BigInt),
  };
}

// Points of the work's samples, by a way to get one.
function points(name, work, valueAt) {
  const { restart, step } = round(work);
  const values = new Float64Array(SPREAD);
  return {
    name,
    start: () => {
      restart();
      values.fill(0);
    },
    run: () => {
      const { place, position } = step();
      values[place] = valueAt(position);
    },
    saved: () => values,
  };
}

export function editMeasures(work) {
  const { plan, bound, samples } = work;
  measured(work, { name: 'edit', cells: 1, calls: 2 * SPREAD }, [stored(work), copied(work), tapped(work)]);
  const [doubles, under, taps] = [Float64Array.from(samples), divisor(plan), byTaps.tapsOf(plan, reach(plan))];
  measured(work, { name: 'point', cells: 1, calls: SPREAD }, [
    points('js-ours-int32', work, (position) => done(point(plan, bound, position, samples)).value),
    points('js-taps', work, (position) => byTaps.point(taps, under, position, doubles)),
  ]);
}
