// What cases are made of: extreme numbers, plans that many cases share, and plans, bounds and samples chosen by a
// generator with a fixed seed, so the same on every machine.
import { divisorOf } from './smoothing.mjs';

export const LARGEST_U64 = 2n ** 64n - 1n;
export const LARGEST_I64 = 2n ** 63n - 1n;
export const LEAST_I64 = -(2n ** 63n);
export const LEAST_I32 = -(2 ** 31);
export const MOST_BOUND = 2 ** 31 - 1;
const MOST_PRODUCT = 2n ** 53n - 1n;

// Doubles that are not a number, by their bits.
export const QUIET_NAN = 0x7ff8000000000000n;
export const NEGATIVE_NAN = 0xfff8000000000001n;
export const SIGNALLING_NAN = 0x7ff0000000000001n;

export function plan(radius, inner, edge, passes) {
  return { radius, inner, edge, passes };
}

// Named by their divisors; that of SEVENS is 7^8.
export const ONE = plan(0, 1, 0, 1);
export const TWO = plan(0, 2, 0, 1);
export const THREE = plan(1, 1, 0, 1);
export const FIVE = plan(0, 3, 1, 1);
export const EIGHT = plan(1, 2, 1, 1);
export const SEVENS = plan(3, 1, 0, 8);

// Divisor 8^8, the largest bound it allows, and the largest size of a result under both.
export const LARGE = plan(1, 2, 1, 8);
export const LARGE_BOUND = 536_870_911;
export const LARGE_MOST = BigInt(LARGE_BOUND) * divisorOf(LARGE);

// The plan of the widest reach, 4,096, with the largest bound it allows and the largest size of a result.
export const WIDEST = plan(1023, 2, 1, 4);
export const WIDEST_BOUND = 31;
export const WIDEST_MOST = BigInt(WIDEST_BOUND) * divisorOf(WIDEST);

// The plan of the farthest reach with eight passes, 384. It allows no bound but 1.
export const FARTHEST = plan(48, 1, 0, 8);

// Two plans of a picture whose divisors times this bound are 2^53 - 1 exactly. No plan of a series meets it.
export const EXACT = [plan(12, 251, 43, 1), plan(135, 255, 163, 1)];
export const EXACT_BOUND = 20_394_401;

// Plans and bounds with a number that could pass if it were cut to 32 bits or read with a sign.
export const WIDE_LIMITS = [2n ** 32n + 1n, 2n ** 63n].flatMap((wide) => [
  ...Object.keys(EIGHT).map((field) => ({ note: `${field} ${wide}`, plan: { ...EIGHT, [field]: wide }, bound: 9 })),
  { note: `bound ${wide}`, plan: EIGHT, bound: wide },
]);

// Lengths of long series and plans for them. The period of the extension is twice the length, so that no window, which
// is odd, is exactly it: there are the two next to it, and one with a whole period on either side of its centre.
export const LONG_SERIES = [
  ['radius far below the length', 100, plan(5, 3, 1, 8)],
  ['radius far below the length', 399, plan(16, 2, 1, 8)],
  ['radius far below the length', 256, FARTHEST],
  ['radius far below the length', 350, plan(12, 4, 3, 7)],
  ['heaviest weights', 310, plan(120, 255, 254, 3)],
  ['reach above the length', 200, plan(120, 20, 7, 4)],
  ['window one below the length', 130, plan(64, 7, 3, 2)],
  ['window as the length', 129, plan(64, 1, 0, 5)],
  ['window one below the period', 101, plan(100, 5, 4, 1)],
  ['window one above the period', 101, plan(101, 2, 0, 3)],
  ['window one above the period', 117, plan(117, 1, 0, 6)],
  ['radius as the period', 65, plan(130, 3, 1, 2)],
  ['radius three above the period', 70, plan(143, 2, 1, 4)],
];

export function times(count, make) {
  return Array.from({ length: count }, (_, n) => make(n));
}

export function filled(length, value) {
  return new Array(length).fill(value);
}

// The mulberry32 generator: each call of the function gives the next whole number below `count`.
export function chance(seed) {
  let state = seed;
  return (count) => {
    state = (state + 0x6d2b79f5) | 0;
    let t = Math.imul(state ^ (state >>> 15), 1 | state);
    t = (t + Math.imul(t ^ (t >>> 7), 61 | t)) ^ t;
    return Math.floor((((t ^ (t >>> 14)) >>> 0) / 2 ** 32) * count);
  };
}

export function pick(below, list) {
  return list[below(list.length)];
}

// The largest bound that these plans allow together.
export function largestBound(...plans) {
  const divisor = plans.reduce((product, each) => product * divisorOf(each), 1n);
  const most = MOST_PRODUCT / divisor;
  return most < BigInt(MOST_BOUND) ? most : BigInt(MOST_BOUND);
}

// A plan of this many passes whose divisor stays below `limit`.
export function anyPlan(below, passes, limit = MOST_PRODUCT) {
  for (;;) {
    const inner = pick(below, [1, 1, 2, 3, 4, 16, 255, 1 + below(255)]);
    const edge = pick(below, [0, inner - 1, below(inner)]);
    const radius = pick(below, [0, 0, 1, 1, 2, 3, 5, below(30)]);
    const chosen = plan(radius, inner, edge, passes);
    if (divisorOf(chosen) < limit) return chosen;
  }
}

export function anyBound(below, ...plans) {
  const most = Number(largestBound(...plans));
  return pick(below, [most, most, 1 + below(most), Math.min(most, 1 + below(100))]);
}

export function anySamples(below, length, bound) {
  return times(length, () => pick(below, [bound, -bound, 0, below(bound + 1), 0 - below(bound + 1), 1, -1]));
}

// Many samples, in runs of different lengths.
export function anyPatches(below, length, bound) {
  const samples = [];
  while (samples.length < length) {
    const run = Math.min(length - samples.length, pick(below, [1, 2, 3, 1 + below(50), 1 + below(500), 1 + below(1000)]));
    samples.push(...filled(run, anySamples(below, 1, bound)[0]));
  }
  return samples;
}

// A short series, its plan and bound.
export function anySeries(below, n) {
  const chosen = anyPlan(below, 1 + n % 8);
  const bound = anyBound(below, chosen);
  const length = 1 + below(9);
  return { plan: chosen, bound, samples: anySamples(below, length, bound), length };
}

// Four samples, of which these many are bad under bound 9.
export const BAD_SAMPLES = [
  ['none bad, three at the bound', [9, -9, 0, 9]],
  ['one bad, the first', [10, 9, -9, 0]],
  ['one bad, the last', [9, -9, 0, -10]],
  ['two bad, the outer ones', [10, 0, 9, -10]],
  ['two bad, the inner ones', [9, -10, 10, -9]],
  ['all bad but the first', [9, LEAST_I32, 10, MOST_BOUND]],
  ['all bad but the last', [10, LEAST_I32, MOST_BOUND, -9]],
  ['all bad', [10, -10, LEAST_I32, MOST_BOUND]],
];

// All at the bound of 9 but one, which stands at each place in turn: compiled code tests several samples at once.
export function oneBadOf(length) {
  return times(length, (n) => [`one bad of ${length}, at ${n}`, filled(length, 9).with(n, n % 2 === 0 ? 10 : -10)]);
}

// What a slice happens to hold before a call.
export function junk(below, length) {
  return times(length, () => pick(below, [below(19) - 9, below(19) - 9, below(1999) - 999]));
}
