// What the tests count with. A check that fails says what it was.
import { isDeepStrictEqual, inspect } from 'node:util';

const MOST_SHOWN = 20;

let passed = 0;
let failed = 0;

function shown(value) {
  return inspect(value, { breakLength: Infinity, maxArrayLength: 12, depth: 4 });
}

export function fails(name, told) {
  failed += 1;
  if (failed <= MOST_SHOWN) console.log(told === undefined ? name : `${name}: ${told}`);
}

export function holds(name, fact, told) {
  if (fact === true) passed += 1;
  else fails(name, told);
}

// Of the same types and cells; minus zero is another number than 0, and NaN the same as NaN.
export function same(name, got, wanted) {
  if (isDeepStrictEqual(got, wanted)) passed += 1;
  else fails(name, `got ${shown(got)}, wanted ${shown(wanted)}`);
}

// That this throws such an error, with these words in its message. Gives the error.
export function throws(name, type, words, run) {
  try {
    run();
  } catch (error) {
    holds(name, error instanceof type && error.message.includes(words), `threw ${error}`);
    return error;
  }
  fails(name, 'did not throw');
  return undefined;
}

export function tell() {
  console.log(`${passed} passed, ${failed} failed`);
  if (failed > 0 || passed === 0) process.exitCode = 1;
}
