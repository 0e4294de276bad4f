// What the library aims at, held against the figures of a run.
import { written } from './statistics.mjs';
import { EDITS, OUTPUTS, SERIES } from './works.mjs';

const MAIN = SERIES[1];
const REACH_18 = EDITS.slice(0, 2);
const [SCIPY, OPENCV] = [['scipy-convolve', 'scipy-uniform'], ['opencv-filter', 'opencv-box']];
const BY_HAND = ['js-best', 'js-best-int32', 'js-plain', 'js-bigint'];

// Aims are `most` or `least`; a value is undefined where something was not timed.
function aims(figures, cc) {
  const median = (work, measure, id) => figures.of(work, measure, id)?.median;
  const smooth = (id) => median(MAIN, 'smooth', id);
  const best = (ids) => {
    const there = ids.map(smooth).filter((each) => each !== undefined);
    return there.length === 0 ? undefined : Math.min(...there);
  };
  const worst = (works, measure, id) => {
    const there = works.map((work) => median(work, measure, id));
    return there.includes(undefined) ? undefined : Math.max(...there);
  };
  const output = (measure) => median(OUTPUTS, measure, 'c-ours');
  const copied = 'no slower than the fastest by hand, with copies';
  return [
    [`C: share of the time of separate passes by ${cc}`, smooth('c-ours') / smooth('c-separate'), { most: 0.9 }],
    ['C: times faster than scipy, the faster of its forms', best(SCIPY) / smooth('python-ours'), { least: 2.5 }],
    ['C: times faster than OpenCV f64, the faster of its forms', best(OPENCV) / smooth('python-ours'), { least: 3 }],
    ['JavaScript: times faster than the fastest by hand, stored series', best(BY_HAND) / smooth('js-ours-resident'),
      { least: 1.3 }],
    [`JavaScript: ${copied}, Int32Array to BigInt64Array`, best(BY_HAND) / smooth('js-ours-int32'), { least: 1 }],
    [`JavaScript: ${copied}, Float64Array to Float64Array`, best(BY_HAND) / smooth('js-ours-float64'), { least: 1 }],
    ['C: whole output, a half to the even, ns a cell', output('whole_even'), { most: 3 }],
    ['C: whole output, a half upward, ns a cell', output('whole_upward'), { most: 3 }],
    ['C: doubles in, signs at random, ns a cell', output('doubles_in_mixed'), { most: 2 }],
    ['C: doubles in, one sign, ns a cell', output('doubles_in_one_sign'), { most: 2 }],
    ['C: an edit at reach 18, µs', worst(REACH_18, 'edit', 'c-ours') / 1e3, { most: 0.3 }],
    ['C: a point at reach 18, µs', worst(REACH_18, 'point', 'c-ours') / 1e3, { most: 0.3 }],
    ['JavaScript: an edit at reach 18, stored series, µs', worst(REACH_18, 'edit', 'js-ours-resident') / 1e3,
      { most: 0.6 }],
    ['JavaScript: a point at reach 18, samples copied, µs', worst(REACH_18, 'point', 'js-ours-int32') / 1e3,
      { most: 0.6 }],
  ];
}

export function aimRows(figures, cc) {
  return aims(figures, cc).map(([what, value, { most, least }]) => {
    const aim = most === undefined ? `at least ${least}` : `at most ${most}`;
    if (!Number.isFinite(value)) return [what, aim, 'not timed', '–'];
    const met = most === undefined ? value >= least : value <= most;
    return [what, aim, written(value), met ? 'met' : '**not met**'];
  });
}
