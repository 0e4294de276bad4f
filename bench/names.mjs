// The programs: how the table names each, which measures it does, and what is said of its results.

const SMOOTHING = ['series.smooth', 'picture.smooth'];
const EDITS = ['edits.edit', 'edits.point'];
const CONVERSIONS = [
  'doubles_in_mixed', 'doubles_in_one_sign', 'doubles', 'whole_even', 'whole_upward', 'carry', 'summary',
  'results_to_doubles', 'doubles_to_results',
].map((name) => `outputs.${name}`);
const RECORD = ['record.read_record'];

// `short` is what a chart has room for.
const program = (id, title, does, more = {}) => ({ id, title, short: title, does, part: id.split('-')[0], ...more });

// The first one's results are those that the others' are compared with. Parts that may be missing are `clang` and the
// libraries; `rounded` is what keeps results from being equal.
export const PROGRAMS = [
  program('c-ours', 'Dungdapple, C', [...SMOOTHING, ...EDITS, ...CONVERSIONS, ...RECORD]),
  program('c-ours-fresh', 'Dungdapple, C, all smoothed afresh', ['edits.edit'], { short: 'Dungdapple, C, afresh' }),
  program('c-separate', 'plain C, separate passes, CC', [...SMOOTHING, 'edits.edit']),
  program('c-fused', 'plain C, fused passes, CC', ['series.smooth']),
  program('c-separate-clang', 'plain C, separate passes, clang', SMOOTHING, { part: 'clang' }),
  program('c-fused-clang', 'plain C, fused passes, clang', ['series.smooth'], { part: 'clang' }),
  program('c-taps', 'plain C, by kept taps, CC', EDITS, { short: 'plain C, kept taps' }),
  program('c-plain', 'plain C, CC', [...CONVERSIONS, ...RECORD]),
  program('c-memcpy', 'memcpy of the column', SMOOTHING, { limit: true }),
  program('js-ours-resident', 'Dungdapple, JavaScript, stored series', ['series.smooth', 'edits.edit'], {
    short: 'Dungdapple, JS, stored',
  }),
  program('js-ours', 'Dungdapple, JavaScript, copied', [...CONVERSIONS, ...RECORD]),
  program('js-ours-int32', 'Dungdapple, JavaScript, copied, Int32Array to BigInt64Array', [...SMOOTHING, ...EDITS], {
    short: 'Dungdapple, JS, copied, Int32 to BigInt64',
  }),
  program('js-ours-float64', 'Dungdapple, JavaScript, copied, Float64Array to Float64Array', SMOOTHING, {
    short: 'Dungdapple, JS, copied, Float64 to Float64',
  }),
  program('js-best', 'JavaScript by hand, Float64Array, the fastest found', SMOOTHING, { short: 'JS by hand, fastest' }),
  program('js-best-int32', 'JavaScript by hand, the same from Int32Array', ['series.smooth']),
  program('js-plain', 'JavaScript by hand, plain', ['series.smooth', ...CONVERSIONS, ...RECORD]),
  program('js-bigint', 'JavaScript by hand, BigInt64Array', ['series.smooth']),
  program('js-taps', 'JavaScript by hand, by kept taps', EDITS, { short: 'JS by hand, kept taps' }),
  program('python-ours', 'Dungdapple, C, called from Python', SMOOTHING, { part: 'numpy' }),
  program('numpy', 'numpy', [
    ...SMOOTHING, ...CONVERSIONS.filter((measure) => !/even|carry/.test(measure)),
  ]),
  program('scipy-convolve', 'scipy, convolve1d', SMOOTHING),
  program('scipy-uniform', 'scipy, uniform_filter1d', SMOOTHING, { rounded: 'means are rounded in every pass' }),
  program('opencv-filter', 'OpenCV, sepFilter2D, f64', SMOOTHING),
  program('opencv-box', 'OpenCV, boxFilter, f64', SMOOTHING),
  program('pillow', 'Pillow, BoxBlur, bytes', ['picture.smooth'], {
    rounded: 'bytes, rounded in every pass; the end cell alone repeated',
  }),
  program('postgresql', 'PostgreSQL, window sums', ['series.smooth']),
];

export const byId = new Map(PROGRAMS.map((each) => [each.id, each]));

export const MEASURES = {
  doubles_in_mixed: 'doubles in, signs at random',
  doubles_in_one_sign: 'doubles in, one sign',
  doubles: 'doubles out',
  whole_even: 'whole out, a half to the even',
  whole_upward: 'whole out, a half upward',
  carry: 'carry out',
  summary: 'summary',
  results_to_doubles: 'exact results to doubles',
  doubles_to_results: 'doubles to exact results',
};
