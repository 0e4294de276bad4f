// The jobs for the program: that each is named once, and that together they meet all that the program can print.
import { JOBS } from './jobs.mjs';
import { times } from './inputs.mjs';
import { report } from './record.mjs';
import { holds, same } from './testing.mjs';

const NUMBERS = [0, 1, 2, 3, 4, 5, 6, 11, 14];
const MOST_DIGITS = 16;

function numberFacts() {
  const given = new Set();
  for (const { note, bytes } of JOBS) {
    const number = Number(report(bytes).split(' ')[1]);
    const [, noted = number] = note.match(/^(\d+)(?:: | before )/) ?? [];
    same(`job ${note}`, number, noted);
    given.add(number);
  }
  same('numbers of the jobs', [...given].sort((a, b) => a - b), NUMBERS);
}

function widthFacts() {
  const printed = new Set(JOBS.flatMap(({ bytes }) => report(bytes).match(/ -?\d+$/gm)).map((result) => (
    result.replace(/\d/g, '9'))));
  for (const digits of times(MOST_DIGITS, (n) => '9'.repeat(n + 1))) {
    holds(`a result like ${digits} and its negative`, printed.has(` ${digits}`) && printed.has(` -${digits}`));
  }
}

export function testJobs() {
  same('notes of jobs differ', new Set(JOBS.map(({ note }) => note)).size, JOBS.length);
  numberFacts();
  widthFacts();
}
