// Tests tools/job.mjs as a shell runs it: arguments to record and back, and what it says of bad ones.
import { fileURLToPath } from 'node:url';
import { recordOf } from '../reference/cases-records.mjs';
import { chance, filled, times } from '../reference/inputs.mjs';
import { NUMBER_FIELDS } from '../reference/record.mjs';
import { bytesOfHex, holds, same, tell } from '../reference/testing.mjs';
import { run, severalAtOnce } from './running.mjs';

const TOOL = [process.execPath, fileURLToPath(new URL('job.mjs', import.meta.url))];
const PAGE_LINE = '--radius 1 --inner 2 --edge 1 --passes 1 --bound 8 8 0 0';
const PAGE_RECORD = bytesOfHex('0100020001 02000102 03000101 04000101 05000400000008 06000C000000080000000000000000');
const FIVE = PAGE_LINE.split(' ').slice(0, 10);
const SAMPLE_RANGE = 'from -2147483648 to 2147483647';

const textOf = (bytes) => Buffer.from(bytes).toString('latin1');

// A trial is what the tool is given, and a check of what it said.
function trial(args, check, input = '') {
  return { args, input, check };
}

function prints(name, args, stdout, input) {
  return trial(args, (said) => same(name, [said.ended, said.stderr, said.stdout], [0, '', stdout]), input);
}

// Refused: one line on standard error that has these words, status 2, and nothing on standard output.
function refuses(name, args, words, input) {
  return trial(args, ({ ended, stdout, stderr }) => {
    same(`${name}: status and output`, [ended, stdout], [2, '']);
    same(`${name}: lines`, stderr.match(/\n/g)?.length, 1);
    for (const word of words) holds(`${name}: ${word} in ${stderr.trim()}`, stderr.includes(word));
  }, input);
}

function bothWays(name, fields, samples) {
  const line = [...NUMBER_FIELDS.map((field, n) => `--${field.name} ${fields[n]}`), ...samples].join(' ');
  const record = recordOf(fields, samples);
  return [
    prints(`${name}, written`, line.split(' '), textOf(record)),
    prints(`${name}, read`, ['--read'], `${line}\n`, record),
  ];
}

function goodTrials() {
  const below = chance(21);
  const sample = () => below(2 ** 32) - 2 ** 31;
  const order = ['8', '--bound', '8', '--edge', '1', '0', '--passes', '1', '--inner', '2', '--radius', '1', '0'];
  return [
    prints('the page, written', PAGE_LINE.split(' '), textOf(PAGE_RECORD)),
    prints('the page, read', ['--read'], `${PAGE_LINE}\n`, PAGE_RECORD),
    prints('any order', order, textOf(PAGE_RECORD)),
    ...bothWays('zeros', filled(5, 0), [0]),
    ...bothWays('largest', [65_535, 255, 255, 255, 4_294_967_295], [-1, -(2 ** 31), 2 ** 31 - 1, -5]),
    ...bothWays('1024 samples', [1, 2, 1, 1, 8], times(1_024, sample)),
    ...times(12, (n) => bothWays(
      `chosen ${n}`, [65_536, 256, 256, 256, 2 ** 32].map(below), times(1 + below(9), sample))).flat(),
  ];
}

function optionTrials({ name, bytes }) {
  const option = `--${name}`;
  const most = 256 ** bytes - 1;
  const range = `from 0 to ${most}`;
  const others = [...FIVE.toSpliced(FIVE.indexOf(option), 2), '8'];
  return [
    refuses(`no ${name}`, others, [option, 'missing', range]),
    refuses(`${name} twice`, [...others, option, '1', option, '1'], [option, 'twice', 'once']),
    refuses(`${name} too large`, [...others, option, `${most + 1}`], [option, `"${most + 1}"`, range]),
    refuses(`${name} negative`, [...others, option, '-1'], [option, '"-1"', range]),
    refuses(`${name} at the end`, [...others, option], [option, 'without a value', range]),
  ];
}

const BAD_SAMPLES = [
  '2147483648', '-2147483649', '1.5', '1e3', '0x10', '+1', ' 1', '', '-', 'x', '1\n2', '9'.repeat(400),
];

const BAD_ARGUMENTS = [
  ...NUMBER_FIELDS.flatMap(optionTrials),
  ...BAD_SAMPLES.map((typed) => (
    refuses(`sample ${typed}`, [...FIVE, '8', typed], [`sample 1 is ${JSON.stringify(typed)}`, SAMPLE_RANGE]))),
  refuses('a word for a value', ['--radius', 'one', ...FIVE.slice(2), '8'], ['--radius is "one"', 'from 0 to 65535']),
  refuses('an option for a value', ['--radius', ...FIVE.slice(2), '8'], ['--radius is "--inner"', 'from 0 to 65535']),
  refuses('another option', [...FIVE, '--bond', '8'], ['"--bond"', '--radius, --inner, --edge, --passes, --bound']),
  refuses('value after =', ['--radius=1', ...FIVE.slice(2), '8'], ['"--radius=1"', '--radius']),
  refuses('no samples', FIVE, ['0', '1 to 1024']),
  refuses('1025 samples', [...FIVE, ...filled(1_025, '8')], ['1025', '1 to 1024']),
  refuses('reading with more', ['--read', ...FIVE, '8'], ['--read alone'], PAGE_RECORD),
];

const BAD_RECORDS = {
  empty: '', cut: PAGE_RECORD.subarray(0, 38), trailing: [...PAGE_RECORD, 0], text: PAGE_LINE, long: filled(200_000, 1),
};

function badRecordTrials() {
  return Object.entries(BAD_RECORDS).map(([name, record]) => (
    refuses(`reading ${name}`, ['--read'], ['no well-formed job record', '14'], record)));
}

function hasUsage(name, text) {
  for (const word of ['usage: ', '--read', ...FIVE.filter((each) => each.startsWith('--'))]) {
    holds(`${name} has ${word}`, text.includes(word));
  }
}

const USAGE_TRIALS = [
  trial(['--help'], ({ ended, stdout, stderr }) => {
    same('help', [ended, stderr], [0, '']);
    hasUsage('help', stdout);
  }),
  trial([], ({ ended, stdout, stderr }) => {
    same('no arguments', [ended, stdout], [2, '']);
    hasUsage('no arguments', stderr);
  }),
];

const trials = [...goodTrials(), ...BAD_ARGUMENTS, ...badRecordTrials(), ...USAGE_TRIALS];
const said = await severalAtOnce(trials, ({ args, input }) => (
  run([...TOOL, ...args], (stdin) => stdin.end(Buffer.from(input)))));
trials.forEach(({ check }, n) => check(said[n]));
tell();
