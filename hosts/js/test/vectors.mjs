// Every stored case of every call, compared with its stored line character by character: through the module's
// exports, and through the functions of the package, there with each kind of array that they take.
import { existsSync } from 'node:fs';
import { isDeepStrictEqual } from 'node:util';
import { fileName, fileOf, storedCases } from '../../../reference/stored.mjs';
import { CALLS, argumentsOf, lineOfOutcome } from '../../../reference/stream.mjs';
import { fails, holds, tell } from './counting.mjs';
import { HOST, KINDS, RAW, throughExports } from './ways.mjs';

// A case whose work is not what a host's call has is none of a host's.
function workIsOurs(number, { work, samples }, raw) {
  if (work === undefined) return true;
  if (number === 3 || number === 4) return work.length === 2 * samples.length;
  return raw || work.length === samples.length;
}

const tried = { calls: 0, cases: 0 };
const leftOut = { exports: 0, package: 0 };

// Such a case is refused by 8 for its work, or by a lower number that the host gives too. Without that work a host's
// call does not give a lower one.
function compareNumber(name, stored, { number }) {
  holds(name, stored === 8n ? number === 0n || number >= 8n : stored === number, `stored ${stored}, got ${number}`);
}

// Lines of long slices take long to make, so an outcome that is the one before has its line.
let last = { values: null };

function lineOf(number, outcome) {
  const values = CALLS[number].prints.map((name) => outcome[name]);
  if (last.number !== number || !isDeepStrictEqual(last.values, values)) {
    last = { number, values, line: lineOfOutcome(CALLS[number], outcome) };
  }
  return last.line;
}

function compare(way, name, number, args, line, run) {
  const outcome = run();
  if (workIsOurs(number, args, way === 'exports')) {
    const got = lineOf(number, outcome);
    holds(name, got === line, `\n  stored ${line}\n  got    ${got}`);
  } else {
    leftOut[way] += 1;
    compareNumber(name, BigInt(line.split(' ')[0]), outcome);
  }
}

function tryCase(number, { note, words, line }) {
  const name = `${fileName(number)}, ${note}`;
  const { args } = argumentsOf(words);
  compare('exports', `${name}, exports`, number, args, line, () => throughExports(number, args));
  if (HOST[number] === null) return;
  // calls that take no slices have one kind only
  const kinds = number === 5 || number >= 100 && number <= 102 ? KINDS.slice(0, 1) : KINDS;
  for (const kind of kinds) {
    compare('package', `${name}, ${kind.note}`, number, args, line, () => HOST[number](kind, args));
  }
}

for (const number of Object.keys(CALLS).map(Number)) {
  if (!(number in RAW && number in HOST)) fails(`${fileName(number)}: no way to run it`);
  else if (!existsSync(fileOf(number))) console.log(`${fileName(number)}: not stored yet`);
  else {
    const cases = storedCases(number);
    holds(`${fileName(number)}: has cases`, cases.length > 0);
    tried.calls += 1;
    tried.cases += cases.length;
    cases.forEach((each) => tryCase(number, each));
  }
}
console.log(`${tried.cases} cases of ${tried.calls} calls`);
console.log(`left out, because their work is not a host's: ${leftOut.exports} through the exports, `
  + `${leftOut.package} through the package`);
tell();
