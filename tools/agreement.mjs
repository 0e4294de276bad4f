// Holds the definitions of `meaning` to the independent program. Each stored vector that is small enough becomes an
// equation between what a definition says of the call and what the program says, and the prover computes it; so does
// each row of the tables of what a host's numbers are taken as.
// The equations stand in a crate of a temporary repository; nothing of them is kept.
import { spawnSync } from 'node:child_process';
import { cpSync, existsSync, mkdirSync, mkdtempSync, rmSync, writeFileSync } from 'node:fs';
import { tmpdir } from 'node:os';
import { dirname, join } from 'node:path';
import { fileURLToPath } from 'node:url';
import * as host from '../reference/arguments.mjs';
import * as job from '../reference/record.mjs';
import { storedCases } from '../reference/stored.mjs';
import { CALLS, bitsOf, decoded } from '../reference/stream.mjs';

// What the prover computes in good time.
const MOST_CELLS = 64;
const MOST_BYTES = 4_200;
const MOST_PASSES = 1_000n;
const MOST_SIGMA = 26_000n;
const MOST_PRODUCTS = 60_000n;

// Values in the notation of the definitions.

const whole = (n) => (BigInt(n) < 0n ? `negsuc ${-1n - BigInt(n)}` : `pos ${n}`);
const list = (items, write) => (items.length ? `(${Array.from(items, write).join(' ∷ ')} ∷ [])` : '[]');
const wholes = (slice) => list(slice, whole);
const naturals = (slice) => list(slice, String);
const floats = (slice) => list(slice, float);
const planOf = ({ radius, inner, edge, passes }) => `(plan ${radius} ${inner} ${edge} ${passes})`;
const answerOf = ({ number, position = 0n, bad = 0n }) => record({ number, position, bad });

function record(fields) {
  return `record { ${Object.entries(fields).map(([name, value]) => `${name} = ${value}`).join('; ')} }`;
}

// A finite double is an odd number, or 0, times a power of 2.
function float(double) {
  const bits = bitsOf(double);
  const negative = bits >> 63n === 1n;
  const exponent = (bits >> 52n) & 0x7ffn;
  let significand = bits & 0xfffffffffffffn;
  if (exponent === 0x7ffn) return significand ? 'nan' : `inf ${negative}`;
  if (exponent) significand += 2n ** 52n;
  if (!significand) return `fin ${negative} 0 (pos 0)`;
  let power = (exponent || 1n) - 1075n;
  for (; significand % 2n === 0n; power += 1n) significand /= 2n;
  return `fin ${negative} ${significand} (${whole(power)})`;
}

// The definition of a result nests its sums, a level a pass: whether that many products are few.
function quick(cells, ...plans) {
  const products = plans.reduce((all, { radius, passes }) => {
    const taps = 2n * radius + 3n;
    return all * passes * taps * taps ** passes;
  }, BigInt(cells));
  return products <= MOST_PRODUCTS;
}

// The equations, of a call's arguments and its outcome by the independent program; null where it would take too long.
// A call that is refused need not be computed whole: its rows decide.

const outcomeIs = (call, out, fields) => `${call} ≡ ${record({ answer: answerOf(out), ...fields })}`;
const answerIs = (rows, out) => `first_of (${rows}) ≡ ${answerOf(out)}`;

const series = ({ plan }, slice) => `(series_of ${planOf(plan)} ${slice.length})`;
const picture = ({ across, down, width, height }) => `(picture_of ${planOf(across)} ${planOf(down)} ${width} ${height})`;

// Rows 1 to 8 alone, for slices too long to write down; null of a call without such rows. Of a call with a plan,
// whether the lengths are wrong is taken from the outcome.
function longSlices(args, out) {
  const refused = out.number >= 1n && out.number <= 8n;
  const rows = commonRowsOf(args, refused);
  return rows === null ? null : answerIs(rows, refused ? out : { number: 0n });
}

function commonRowsOf(args, refused) {
  const { plan, across, bound, samples, results, doubles, cells } = args;
  if (plan) return `common_rows ${series(args, samples ?? results)} ${bound} ${refused}`;
  if (across) return `common_rows ${picture(args)} ${bound} ${refused}`;
  return results ? `length_rows ${(doubles ?? results).length} ${(cells ?? results).length}` : null;
}

function smoothed(call, shape, { bound, samples, results, work }, out, isQuick) {
  if (isQuick) {
    const slices = `${wholes(samples)} ${wholes(results)} ${wholes(work)}`;
    return outcomeIs(`${call} ${slices}`, out, { results: wholes(out.results), work: wholes(out.work) });
  }
  const rows = `smooth_rows ${shape} ${bound} ${wholes(samples)} ${results.length} ${work.length}`;
  return out.number === 0n ? null : answerIs(rows, out);
}

function smoothSeries(args, out) {
  const { plan, bound, samples } = args;
  const call = `smooth_series fold ${planOf(plan)} ${bound}`;
  return smoothed(call, series(args, samples), args, out, quick(samples.length, plan));
}

function smoothPicture(args, out) {
  const { across, down, bound, width, height, samples } = args;
  const call = `smooth_picture fold fold ${planOf(across)} ${planOf(down)} ${bound} ${width} ${height}`;
  return smoothed(call, picture(args), args, out, quick(samples.length, across, down));
}

function edit({ plan, bound, position, value, samples, results, work }, out) {
  const inputs = `${planOf(plan)} ${bound} ${position} (${whole(value)}) ${wholes(samples)} ${wholes(results)}`;
  if (quick(samples.length, plan)) {
    const after = { samples: wholes(out.samples), results: wholes(out.results), work: wholes(out.work) };
    return outcomeIs(`edit_series fold ${inputs} ${wholes(work)}`, out, { count: out.count, ...after });
  }
  const untilTwelve = out.number !== 0n && out.number !== 12n;
  return untilTwelve ? answerIs(`edit_rows ${inputs} ${wholes(results)} ${work.length}`, out) : null;
}

function point({ plan, bound, position, samples, work }, out) {
  const inputs = `${planOf(plan)} ${bound} ${position} ${wholes(samples)}`;
  if (quick(1, plan)) {
    return outcomeIs(`point fold ${inputs} ${wholes(work)}`, out, { value: float(out.value), work: wholes(out.work) });
  }
  return out.number === 0n ? null : answerIs(`point_rows ${inputs} ${work.length}`, out);
}

function planner({ sigma, passes, inner }, out) {
  if (sigma > MOST_SIGMA) return null;
  return outcomeIs(`plan_for ${sigma} ${passes} ${inner}`, out, { radius: out.radius, edge: out.edge });
}

function ofPlan(definition, name) {
  return ({ plan }, out) => `${definition} ${planOf(plan)} ≡ ${out[name]}`;
}

function doublesIn({ bound, doubles, samples }, out) {
  return outcomeIs(`doubles_in ${bound} ${floats(doubles)} ${wholes(samples)}`, out, { cells: wholes(out.samples) });
}

function resultsToDoubles({ results, cells }, out) {
  return outcomeIs(`results_to_doubles ${wholes(results)} ${floats(cells)}`, out, { cells: floats(out.cells) });
}

function doublesToResults({ doubles, results }, out) {
  return outcomeIs(`doubles_to_results ${floats(doubles)} ${wholes(results)}`, out, { cells: wholes(out.results) });
}

function outputInputs({ plan, across, down, bound, width, height, mode = '', results }) {
  const limits = plan ? `${planOf(plan)} ${bound}` : `${planOf(across)} ${planOf(down)} ${bound} ${width} ${height}`;
  return `${limits} ${mode} ${wholes(results)}`;
}

function output(definition, write, answered = () => ({})) {
  return (args, out) => {
    const call = `${definition} ${outputInputs(args)} ${write(args.cells)}`;
    return outcomeIs(call, out, { ...answered(out), cells: write(out.cells) });
  };
}

function carrying(definition) {
  return output(definition, wholes, ({ carry }) => ({ carry }));
}

function summary(definition) {
  return (args, out) => outcomeIs(`${definition} ${outputInputs(args)}`, out, {
    lowest: float(out.lowest),
    highest: float(out.highest),
    lowest_at: out.indexOfLowest,
    highest_at: out.indexOfHighest,
  });
}

function readRecord({ record: bytes }, { number, length, ...numbers }) {
  return outcomeIs(`read_record ${naturals(bytes)}`, { number }, { size: length, ...numbers });
}

function writeRecord({ radius, inner, edge, passes, bound, samples, record: bytes }, out) {
  const inputs = `${radius} ${inner} ${edge} ${passes} ${bound} ${wholes(samples)} ${naturals(bytes)}`;
  return outcomeIs(`write_record ${inputs}`, out, { slice: naturals(out.record) });
}

function stretchOf({ record: bytes, start, size }, out) {
  return `stretch ${start} ${size} ${naturals(bytes)} ≡ ${naturals(out.stretch)}`;
}

function sampleOf({ index }, out) {
  return `sample_at ${naturals(out.stretch)} ${index} ≡ ${whole(out.sample)}`;
}

// The program on a record that was read, and on the record of a series that was smoothed.
function programOfRecord({ record: bytes }, { number, radius, passes, length }) {
  if (bytes.length > MOST_CELLS || (number === 0n && !quick(length / 4n, { radius, passes }))) return null;
  return `program ${naturals(bytes)} ≡ text ${JSON.stringify(job.report(bytes))}`;
}

function programOfSeries({ plan, bound, samples }) {
  const room = new Uint8Array(job.recordLength(samples.length));
  const { number, record: bytes } = job.writeRecord({ ...plan, bound, samples, record: room });
  return number === 0n ? programOfRecord({ record: bytes }, job.readRecord({ record: bytes })) : null;
}

// What a host's numbers are taken as.

function wholeTaken([double, taken]) {
  return `whole_of (${float(double)}) ≡ ${whole(taken)}`;
}

function countTaken([double, , taken]) {
  return `count_of (${float(double)}) ≡ ${taken}`;
}

function planTaken([doubles, [radius, inner, edge, passes]]) {
  return `plan_in ${floats(doubles)} ≡ ${record({ radius, inner, edge, passes })}`;
}

function recordWritten([, plan, bound, samples, room]) {
  const lent = new Uint8Array(room).fill(170);
  const out = host.writeRecordIn({ plan, bound, samples, record: lent });
  const numbers = `(plan_in ${floats(plan)}) (count_of (${float(bound)}))`;
  const call = `write_record_in ${numbers} ${wholes(samples)} ${naturals(lent)}`;
  return outcomeIs(call, out, { slice: naturals(out.record) });
}

const EQUATIONS = [
  [1, smoothSeries],
  [2, smoothPicture],
  [3, edit],
  [4, point],
  [5, planner],
  [6, doublesIn],
  [7, output('whole_series_by', wholes)],
  [8, output('doubles_series', floats)],
  [9, summary('summary_series')],
  [10, output('whole_picture_by', wholes)],
  [11, output('doubles_picture', floats)],
  [12, summary('summary_picture')],
  [13, readRecord],
  [13, programOfRecord, 'program'],
  [1, programOfSeries, 'program'],
  [14, writeRecord],
  [15, carrying('carry_series')],
  [16, carrying('carry_picture')],
  [25, resultsToDoubles],
  [26, doublesToResults],
  [100, ofPlan('plan_divisor', 'divisor'), 'divisor'],
  [100, ofPlan('plan_reach', 'reach'), 'reach'],
  [101, stretchOf, 'stretch'],
  [101, sampleOf, 'sample'],
  [107, output('whole_series', wholes)],
  [110, output('whole_picture', wholes)],
];

const TABLES = [
  ['whole-of', host.DOUBLES_TAKEN, wholeTaken],
  ['count-of', host.DOUBLES_TAKEN, countTaken],
  ['plan-in', host.PLANS_TAKEN, planTaken],
  ['write-record-in', host.RECORDS_WRITTEN, recordWritten],
];

// The crate of equations. Every definition is opened to the prover.

const OPENED = {
  'Rattle.std.specs.Float.Ieee': 'of_int div to_signed round size units odd span climb',
  'Rattle.std.specs.Int.Count': 'count_trailing_zeros',
  'Rattle.algebra.specs.Within': 'sum_within',
  'Rattle.meaning.specs.Extension': 'emod reflect fold ext',
  'Rattle.meaning.specs.Kernel': 'tap pass_at kernel width reach tap_sum divisor',
  'Rattle.meaning.specs.Smoothing': 'list_of convolved result results weight near',
  'Rattle.meaning.specs.Picture': 'pixel grid picture',
  'Rattle.meaning.specs.Refusals': 'first_of first_where count_where row_at some plan_rows size_rows if_done own_rows plan_divisor plan_reach',
  'Rattle.meaning.specs.Values':
    'nearest even nearest_even ratio takes double_rows doubles_in output_rows converted mode_rows unbeaten summary',
  'Rattle.meaning.specs.Carry': 'carry carry_cell carried',
  'Rattle.meaning.specs.Exact': 'length_rows exact_rows results_to_doubles back_rows doubles_to_results',
  'Rattle.meaning.specs.Calls': 'smooth_rows smoothed gained edit_rows changed edit_series point_rows point',
  'Rattle.meaning.specs.Planner': 'largest radius_for nearest_down edge_for widened stage_for planner_rows plan_for',
  'Rattle.meaning.specs.Encoding': 'bytes number text digits decimal',
  'Rattle.meaning.specs.Record':
    'field sample_bytes sample_at stretch samples_of record_of begins reading read_record write_record',
  'Rattle.meaning.specs.Program': 'first_line result_lines report program',
  'Rattle.meaning.specs.Arguments': 'whole_of unsigned count_of plan_in',
  'Rattle.meaning.specs.HostRecord': 'field_rows write_record_in',
};

const HEAD = [
  'use Rattle.std.specs.Prelude.{◌≡◌, refl, true, false, [], ◌∷◌, pos, negsuc}',
  'use Rattle.std.specs.Float.{nan, inf, fin}',
  'use Rattle.meaning.specs.Kernel.{plan}',
  'use Rattle.meaning.specs.Refusals.{series_of, picture_of, common_rows}',
  'use Rattle.meaning.specs.Values.{whole_series, whole_series_by, doubles_series, summary_series}',
  'use Rattle.meaning.specs.Values.{whole_picture, whole_picture_by, doubles_picture, summary_picture}',
  'use Rattle.meaning.specs.Carry.{carry_series, carry_picture}',
  'use Rattle.meaning.specs.Calls.{smooth_series, smooth_picture}',
  ...Object.entries(OPENED).map(([from, names]) => `use ${from}.{${names.replaceAll(' ', ', ')}}`),
];

const UNFOLDING = `unfolding ${Object.values(OPENED).join(' ')}`;

function equationOf(equation, { args, outcome }) {
  const values = Object.values(args);
  if (values.some((each) => each.passes > MOST_PASSES)) return null;
  if (values.every((each) => !(each.length > (each.BYTES_PER_ELEMENT === 1 ? MOST_BYTES : MOST_CELLS)))) {
    return equation(args, outcome);
  }
  return longSlices(args, outcome);
}

function ofVectors([call, equation, name = CALLS[call].name]) {
  const cases = storedCases(call).map(({ words }) => decoded(words));
  const equations = cases.map((each) => equationOf(equation, each)).filter((each) => each !== null);
  if (equations.length === 0) throw new Error(`no vector of ${name} is small enough`);
  return [name, equations, 'vectors'];
}

function ofTable([name, rows, equation]) {
  return [name, rows.map((row) => equation(row)), 'rows'];
}

function moduleText(equations) {
  const theorems = equations.map((each, n) => `\ncase_${n} : ${each}\n${UNFOLDING}\ncase_${n} = refl`);
  return [...HEAD, ...theorems, ''].join('\n');
}

function writeRepository(folder) {
  const root = join(dirname(fileURLToPath(import.meta.url)), '..');
  const crate = (name, ...parts) => join(folder, 'crates', name, ...parts);
  for (const name of ['algebra', 'meaning']) {
    for (const part of ['src', 'specs', 'proofs']) {
      const from = join(root, 'crates', name, part);
      if (existsSync(from)) cpSync(from, crate(name, part), { recursive: true });
    }
  }
  mkdirSync(crate('agreement', 'src'), { recursive: true });
  mkdirSync(crate('agreement', 'specs'));
  writeFileSync(join(folder, 'crates.txt'), 'algebra:\nmeaning: algebra\nagreement: meaning algebra\n');
  writeFileSync(crate('agreement', 'src', 'lib.rt'), '// Equations only: see specs/.\n#![tactic(auto)]\n');

  let count = 0;
  const parts = [...EQUATIONS.map(ofVectors), ...TABLES.map(ofTable)];
  const modules = parts.map(([name, equations, kind], n) => {
    console.log(`${name}: ${equations.length} ${kind}`);
    writeFileSync(crate('agreement', 'specs', `Part${n}.antt`), moduleText(equations));
    count += equations.length;
    return `pub mod Part${n}\n`;
  });
  writeFileSync(crate('agreement', 'specs', 'Lib.antt'), modules.join(''));
  return count;
}

function prove(folder) {
  const options = { cwd: join(folder, 'crates', 'agreement'), encoding: 'utf8', maxBuffer: 2 ** 28 };
  const { status, stdout, stderr, error } = spawnSync('rt', ['check'], options);
  if (error) throw error;
  return { proved: status === 0 && /^logic=proved /m.test(stdout.trimEnd().split('\n').at(-1)), said: stdout + stderr };
}

const MOST_SHOWN = 30;

const folder = mkdtempSync(join(tmpdir(), 'agreement-'));
try {
  const count = writeRepository(folder);
  const { proved, said } = prove(folder);
  if (proved) {
    console.log(`${count} passed, 0 failed`);
  } else {
    console.log(said.split('\n').filter((line) => /error|^ |NOT/.test(line)).slice(0, MOST_SHOWN).join('\n'));
    console.log('the definitions and the independent program differ');
    process.exitCode = 1;
  }
} finally {
  rmSync(folder, { recursive: true, force: true });
}
