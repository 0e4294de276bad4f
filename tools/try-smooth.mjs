// Runs the program `smooth` on every job of the reference and compares what it prints, byte by byte, with the
// reference's report: `node tools/try-smooth.mjs [COMMAND [WORD..]]`, by itself with ./smooth of the repository.
import { spawnSync } from 'node:child_process';
import { openSync } from 'node:fs';
import { tmpdir } from 'node:os';
import { setTimeout as pause } from 'node:timers/promises';
import { fileURLToPath } from 'node:url';
import { JOBS, JOBS_IN_PIECES } from '../reference/jobs.mjs';
import { report } from '../reference/record.mjs';
import { run, severalAtOnce } from './running.mjs';

const SECONDS = 60;
const MOST_SHOWN = 100;

const given = process.argv.slice(2);
const command = given.length > 0 ? given : [fileURLToPath(new URL('../smooth', import.meta.url))];

// How the bytes of a job arrive. Between pieces is a pause in which the program reads what is there, and after the
// first a longer one, in which it starts: else it would find them all together. Times are in milliseconds.

const START = 1_000;
const PIECES = [{ size: 1, gap: 1 }, { size: 7, gap: 2 }, { size: 1_000, gap: 50 }];

function atOnce(bytes) {
  return (input) => input.end(bytes);
}

function inPieces(bytes, { size, gap }) {
  return async (input) => {
    for (let at = 0; at < bytes.length && input.writable; at += size) {
      input.write(bytes.subarray(at, at + size));
      await pause(at === 0 ? START : gap);
    }
    input.end();
  };
}

const WHOLE = JOBS.map(({ note, bytes }) => ({ note, bytes, feed: atOnce(bytes) }));
const SLOW = PIECES.flatMap((pieces) => JOBS_IN_PIECES.map(({ note, bytes }) => (
  { note: `${note}, in pieces of ${pieces.size}`, bytes, feed: inPieces(bytes, pieces) })));

// What is wrong with a run, or null.

function shown(line) {
  if (line === undefined) return 'nothing';
  return line.length > MOST_SHOWN ? `${JSON.stringify(line.slice(0, MOST_SHOWN))}..` : JSON.stringify(line);
}

function firstDifference(expected, got) {
  const [wanted, printed] = [expected, got].map((text) => text.split(/(?<=\n)/));
  let at = 0;
  while (wanted[at] === printed[at]) at += 1;
  return `  line ${at + 1}\n  expected ${shown(wanted[at])}\n  got      ${shown(printed[at])}`;
}

function failureOf({ note, bytes }, { stdout, stderr, ended }) {
  const expected = report(bytes);
  const faults = [];
  if (ended !== 0) faults.push(`  expected status 0\n  got      ${ended} ${shown(stderr)}`);
  if (stdout !== expected) faults.push(firstDifference(expected, stdout));
  return faults.length === 0 ? null : [note, ...faults].join('\n');
}

// The first run is alone and may take its time, because ./smooth builds the program.
function failureOfStart() {
  const [name, ...words] = command;
  const { status, signal, error } = spawnSync(name, words, { input: '', stdio: ['pipe', 'ignore', 'inherit'] });
  if (status === 0) return null;
  return `${command.join(' ')}: no job was tried\n  expected status 0\n  got      ${status ?? signal ?? error.code}`;
}

// A job that was not read, or a report that was not taken, may not pass for one that was.
function failureOfBroken({ note, stdio }) {
  const [name, ...words] = command;
  const { status, stderr } = spawnSync(name, words, { input: JOBS[0].bytes, stdio: stdio(), encoding: 'latin1' });
  if (status !== 0 && stderr !== '') return null;
  return `${note}\n  expected another status than 0, and a line on standard error\n  got      ${status} ${shown(stderr)}`;
}

const BROKEN = [
  { note: 'standard output full', stdio: () => ['pipe', openSync('/dev/full', 'w'), 'pipe'] },
  { note: 'standard input a folder', stdio: () => [openSync(tmpdir(), 'r'), 'pipe', 'pipe'] },
];

async function failuresOf(trials) {
  const runs = await severalAtOnce(trials, ({ feed }) => run(command, feed, SECONDS));
  return trials.map((trial, n) => failureOf(trial, runs[n])).filter((failure) => failure !== null);
}

function tell(passed, failures) {
  failures.forEach((failure) => console.log(failure));
  console.log(`${passed} passed, ${failures.length} failed`);
  if (failures.length > 0) process.exitCode = 1;
}

const unable = failureOfStart();
if (unable === null) {
  // The slow ones have the machine for themselves, so that their reads are as short as they are meant to be.
  const broken = BROKEN.map(failureOfBroken).filter((failure) => failure !== null);
  const failures = [...await failuresOf(WHOLE), ...await failuresOf(SLOW), ...broken];
  tell(WHOLE.length + SLOW.length + BROKEN.length - failures.length, failures);
} else {
  tell(0, [unable]);
}
