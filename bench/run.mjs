// The command: `bench/run` measures, `bench/run --check` compares.
import { check } from './check.mjs';
import { measure } from './measure.mjs';
import { Missing } from './programs.mjs';

const USAGE = 'usage: bench/run [--check]';
const words = process.argv.slice(2);

try {
  if (words.length === 0) process.exitCode = measure() ? 0 : 1;
  else if (words.length === 1 && words[0] === '--check') process.exitCode = check() ? 0 : 1;
  else if (words.length === 1 && words[0] === '--help') console.log(USAGE);
  else {
    console.error(USAGE);
    process.exitCode = 2;
  }
} catch (error) {
  if (!(error instanceof Missing)) throw error;
  console.error(`bench: ${error.message}`);
  process.exitCode = 1;
}
