// The stored cases: `write` stores them, and the driver's input and lines, `check` checks what is stored, and
// `stream NN [NN ..] --stdin FILE --stdout FILE` writes the stream of these calls for the driver and its lines.
import { existsSync, mkdirSync, readFileSync, readdirSync, writeFileSync } from 'node:fs';
import { NUMBERS_GIVEN, casesOf } from './cases.mjs';
import { ONE } from './inputs.mjs';
import { FOLDER, fileName, fileOf, fileText, storedCases, wordsText } from './stored.mjs';
import { CALLS, bytesOfWords, callWords, linesFor } from './stream.mjs';

const MOST_SHOWN = 10;

// The driver has every call.
const DRIVEN = Object.keys(CALLS).map(Number);
const DRIVER = new URL('../crates/calls/', import.meta.url);

// A call whose samples are one too many for the driver, and a good one, which is not read any more.
const GOOD = callWords(1, { plan: ONE, bound: 9, samples: [1], results: [2], work: [3] });
const TOO_LONG = [...GOOD.slice(0, 6), 131_073n, ...GOOD];

// The driver's input and lines: the stored cases of these calls, and then the end.
function streamOf(calls) {
  const cases = calls.flatMap((call) => storedCases(call));
  const lines = [...cases.map(({ line }) => line), ...linesFor(TOO_LONG)];
  return {
    stdin: Buffer.concat([...cases.map(({ words }) => words), TOO_LONG].map(bytesOfWords)),
    stdout: Buffer.from(lines.map((line) => `${line}\n`).join('')),
  };
}

// The checks. Each gives what differs, or null.

function caseDiffers(call, { note, words, line }) {
  const lines = linesFor(words);
  if (Number(words[0]) === call && lines.length === 1 && lines[0] === line) return null;
  const computed = lines.join(' | ');
  return `${fileName(call)}: ${note}\n  words    ${wordsText(words)}\n  stored   ${line}\n  computed ${computed}`;
}

// Notes and words have to be those that the seed makes now. The lines are checked case by case already.
function fileDiffers(call, stored) {
  const made = casesOf(call).map((each, n) => ({ ...each, line: stored[n]?.line }));
  const same = fileText(made) === readFileSync(fileOf(call), 'utf8');
  return same ? null : `${fileName(call)}: not what the seed makes now`;
}

// Of a call whose line begins with the answer's number.
function numbersDiffer(call, cases) {
  const given = new Set(cases.map(({ line }) => Number(line.split(' ')[0])));
  const wanted = new Set(NUMBERS_GIVEN[call]);
  const missing = [...wanted].filter((number) => !given.has(number)).map((number) => `no case of number ${number}`);
  const strange = [...given].filter((number) => !wanted.has(number)).map((number) => `unexpected number ${number}`);
  const all = [...missing, ...strange];
  return all.length === 0 ? null : `${fileName(call)}: ${all.join(', ')}`;
}

function checksOf(call) {
  if (!existsSync(fileOf(call))) return [`${fileName(call)}: missing`];
  const cases = storedCases(call);
  if (cases.length === 0) return [`${fileName(call)}: empty`];
  console.log(`${fileName(call)}: ${cases.length} cases`);
  const numbers = CALLS[call].prints[0] === 'number' ? [numbersDiffer(call, cases)] : [];
  return [...cases.map((each) => caseDiffers(call, each)), ...numbers, fileDiffers(call, cases)];
}

function driverDiffers() {
  return Object.entries(streamOf(DRIVEN)).map(([name, made]) => {
    const file = new URL(name, DRIVER);
    const same = existsSync(file) && made.equals(readFileSync(file));
    return same ? null : `crates/calls/${name}: not what the stored cases make now`;
  });
}

function strangeFiles() {
  if (!existsSync(FOLDER)) return ['vectors: missing'];
  const known = Object.keys(CALLS).map(fileName);
  return readdirSync(FOLDER).filter((name) => !known.includes(name)).map((name) => `${name}: of no call`);
}

// The commands.

function write() {
  mkdirSync(FOLDER, { recursive: true });
  for (const call of Object.keys(CALLS)) {
    const cases = casesOf(call).map((each) => ({ ...each, line: linesFor(each.words).join(' | ') }));
    writeFileSync(fileOf(call), fileText(cases));
  }
  for (const [name, made] of Object.entries(streamOf(DRIVEN))) writeFileSync(new URL(name, DRIVER), made);
}

function check() {
  const stored = Object.keys(CALLS).flatMap((call) => checksOf(Number(call)));
  const checks = [...stored, ...strangeFiles(), ...driverDiffers()];
  const failures = checks.filter((failure) => failure !== null);
  failures.slice(0, MOST_SHOWN).forEach((failure) => console.log(failure));
  console.log(`${checks.length - failures.length} passed, ${failures.length} failed`);
  if (failures.length > 0) process.exitCode = 1;
}

function stream(rest) {
  const [stdoutFile, stdoutOption, stdinFile, stdinOption, ...calls] = rest.reverse();
  const known = calls.length > 0 && calls.every((call) => Number(call) in CALLS);
  if (!known || stdinOption !== '--stdin' || stdoutOption !== '--stdout') return usage();
  const { stdin, stdout } = streamOf(calls.reverse().map(Number));
  writeFileSync(stdinFile, stdin);
  writeFileSync(stdoutFile, stdout);
}

function usage() {
  console.log('vectors.mjs write | check | stream NN [NN ..] --stdin FILE --stdout FILE');
  process.exitCode = 2;
}

const COMMANDS = { write, check, stream };

const [command, ...rest] = process.argv.slice(2);
(COMMANDS[command] ?? usage)(rest);
