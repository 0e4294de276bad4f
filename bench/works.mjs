// The works: what is measured, on which samples. A work's name is that of its files.

// The plan (r, b, a, K) over a series of n, or over a picture both ways.
const work = (kind, radius, inner, edge, passes, bound, width, height = 1) => {
  const sides = height === 1 ? [width] : [width, height];
  const name = [kind, radius, inner, edge, passes, ...sides].join('-');
  return { kind, name, plan: { radius, inner, edge, passes }, bound, width, height };
};

const LONGEST = 65_536;
// Fits every plan of radius 5 and of 3 passes below: bound times divisor is at most 2^53 - 1.
const BOUND = 10_000;

export const planText = ({ radius, inner, edge, passes }) => `(${radius}, ${inner}, ${edge}, ${passes})`;

// Radius 50 with 8 passes is refused under every bound, by 6: the least divisor is 101^8. 48 is the largest accepted.
export const REFUSED = { plan: { radius: 50, inner: 1, edge: 0, passes: 8 }, bound: 1, number: 6 };
export const NEAREST = work('series', 48, 1, 0, 8, 1, LONGEST);

export const SERIES = [
  work('series', 5, 2, 1, 1, BOUND, LONGEST),
  work('series', 5, 2, 1, 3, BOUND, LONGEST),
  work('series', 5, 2, 1, 8, BOUND, LONGEST),
  work('series', 50, 2, 1, 1, BOUND, LONGEST),
  work('series', 50, 2, 1, 3, BOUND, LONGEST),
  NEAREST,
];
export const PICTURES = [work('picture', 5, 2, 1, 1, 255, 256, 256), work('picture', 5, 2, 1, 3, 255, 256, 256)];
export const EDITS = [
  work('edits', 5, 2, 1, 3, BOUND, 1_024),
  work('edits', 5, 2, 1, 3, BOUND, LONGEST),
  work('edits', 1_023, 2, 1, 4, 31, LONGEST),
];
export const OUTPUTS = work('outputs', 5, 2, 1, 3, BOUND, LONGEST);
export const RECORD = work('record', 5, 2, 1, 3, BOUND, 1_024);

// How cost grows: one chart each.
export const GROWTH = {
  length: [64, 256, 1_024, 4_096, 16_384, LONGEST].map((n) => work('series', 5, 2, 1, 3, BOUND, n)),
  radius: [1, 2, 5, 10, 20, 50, 100, 200, 500, 1_000].map((r) => work('series', r, 2, 1, 3, BOUND, LONGEST)),
  passes: [1, 2, 3, 4, 5, 6, 7, 8].map((k) => work('series', 5, 2, 1, k, BOUND, LONGEST)),
  reach: [0, 3, 15, 63, 255, 1_023].map((r) => work('edits', r, 2, 1, 4, 31, LONGEST)),
};

// Each name once: the first of it.
const once = (works) => works.filter(({ name }, n) => works.findIndex((each) => each.name === name) === n);

export const TIMED = once([...SERIES, ...PICTURES, ...EDITS, OUTPUTS, RECORD, ...Object.values(GROWTH).flat()]);

// Small works for the check: a series shorter than the radius, lengths about twice the radius and two, where a pass
// first has a middle; lengths about a block of the fused form; every number of passes; pictures of one row and column.
const around = (radius) => [1, 2, radius, radius + 1, 2 * radius + 1, 2 * radius + 2, 2 * radius + 3, 300];

export const CHECKED = once([
  ...[1, 3, 8].flatMap((passes) => around(5).map((n) => work('series', 5, 2, 1, passes, BOUND, n))),
  ...[1, 3].flatMap((passes) => around(50).map((n) => work('series', 50, 2, 1, passes, BOUND, n))),
  ...around(48).map((n) => work('series', 48, 1, 0, 8, 1, n)),
  ...[1_024, 3_000].map((n) => work('series', 1_023, 2, 1, 4, 31, n)),
  ...[2, 4, 5, 6, 7].map((passes) => work('series', 1, 7, 3, passes, 50, 1_500)),
  work('series', 0, 1, 0, 1, BOUND, 9),
  work('picture', 5, 2, 1, 1, 255, 16, 9),
  work('picture', 5, 2, 1, 3, 255, 31, 33),
  work('picture', 2, 1, 0, 2, 255, 8, 2),
  work('picture', 3, 5, 2, 3, 255, 2, 20),
  ...[1, 2, 12, 37, 100].map((n) => work('edits', 5, 2, 1, 3, BOUND, n)),
  work('edits', 7, 1, 0, 8, 9, 60),
  work('edits', 1_023, 2, 1, 4, 31, 500),
  work('edits', 1_023, 2, 1, 4, 31, 9_000),
  ...[1, 40, 2_000].map((n) => work('outputs', 5, 2, 1, 3, BOUND, n)),
  work('outputs', 1, 2, 1, 1, 9, 500),
  ...[1, 1_024].map((n) => work('record', 5, 2, 1, 3, BOUND, n)),
]);

// Samples by one rule, the same on every machine: within the bound, of both signs; of a picture, bytes.
export function samplesOf({ kind, name, bound, width, height }) {
  const samples = new Int32Array(width * height);
  const least = kind === 'picture' ? 0 : -bound;
  let state = [...name].reduce((sum, letter) => (31 * sum + letter.charCodeAt(0)) >>> 0, 7);
  for (let i = 0; i < samples.length; i += 1) {
    state = (Math.imul(state, 1_664_525) + 1_013_904_223) >>> 0;
    samples[i] = least + Math.floor((state / 2 ** 32) * (bound - least + 1));
  }
  return samples;
}

// As the programs read it.
export function lineOf({ kind, name, plan: { radius, inner, edge, passes }, bound, width, height }) {
  return [kind, name, radius, inner, edge, passes, bound, width, height].join(' ');
}
