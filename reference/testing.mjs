// What the self-test counts with, and short ways to make calls.
import { edit, point, smoothSeries } from './calls.mjs';

let passed = 0;
let failed = 0;

export function text(value) {
  if (ArrayBuffer.isView(value)) return text(Array.from(value));
  if (Array.isArray(value)) return `(${value.map(text).join(', ')})`;
  return Object.is(value, -0) ? '-0' : String(value);
}

export function same(name, got, wanted) {
  if (text(got) === text(wanted)) {
    passed += 1;
    return;
  }
  failed += 1;
  console.log(`${name}: got ${text(got)}, wanted ${text(wanted)}`);
}

export function holds(name, fact) {
  same(name, fact, true);
}

// The exact sum of whole numbers.
export function total(list) {
  return Array.from(list).reduce((sum, each) => sum + BigInt(each), 0n);
}

export function tell() {
  console.log(`${passed} passed, ${failed} failed`);
  if (failed > 0) process.exitCode = 1;
}

// Short ways to make calls.

export function plan(radius, inner, edge, passes) {
  return { radius: BigInt(radius), inner: BigInt(inner), edge: BigInt(edge), passes: BigInt(passes) };
}

export function work(length) {
  return new BigInt64Array(length).fill(-7n);
}

export function smoothed(chosen, samples, bound = 100) {
  return smoothSeries({
    plan: chosen, bound: BigInt(bound), samples: Int32Array.from(samples), results: work(samples.length),
    work: work(samples.length),
  });
}

export function edited(chosen, bound, position, value, samples, results) {
  return edit({
    plan: chosen, bound: BigInt(bound), position: BigInt(position), value: BigInt(value),
    samples: Int32Array.from(samples), results: BigInt64Array.from(results, (each) => BigInt(each)),
    work: work(2 * samples.length),
  });
}

export function valueAt(chosen, bound, position, samples) {
  return point({
    plan: chosen, bound: BigInt(bound), position: BigInt(position), samples: Int32Array.from(samples),
    work: work(2 * samples.length),
  });
}

export function outputArgs(chosen, bound, results, Cells) {
  return {
    plan: chosen, bound: BigInt(bound), results: BigInt64Array.from(results, (each) => BigInt(each)),
    cells: new Cells(results.length),
  };
}

export function bytesOfHex(hex) {
  return Uint8Array.from(hex.replaceAll(' ', '').match(/../g), (byte) => parseInt(byte, 16));
}

export function numbersOf({ number, radius, inner, edge, passes, bound }) {
  return [number, radius, inner, edge, passes, bound];
}
