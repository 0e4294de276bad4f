// What the benchmark's JavaScript programs share: the works of a folder, the clock, and what is told.
import { readFileSync, writeFileSync } from 'node:fs';
import { join } from 'node:path';

const [LEAST_ROUNDS, MOST_ROUNDS, FEWEST_ROUNDS] = [31, 201, 5];
// nanoseconds; an engine needs longer to be warm than a processor does
const [LEAST_SAMPLE, WARM, USUAL, MOST] = [20e3, 40e6, 120e6, 1500e6];

export const SPREAD = 64;

const [mode, folder] = process.argv.slice(2);

export function* works() {
  for (const line of readFileSync(join(folder, 'works'), 'utf8').trimEnd().split('\n')) {
    const [kind, name, ...numbers] = line.split(' ');
    const [radius, inner, edge, passes, bound, width, height] = numbers.map(Number);
    const bytes = readFileSync(join(folder, `${name}.samples`));
    const samples = new Int32Array(new Uint8Array(bytes).buffer);
    yield { kind, name, plan: { radius, inner, edge, passes }, bound, n: width * height, width, height, samples };
  }
}

const now = () => Number(process.hrtime.bigint());

// Nanoseconds a call, by so many calls in a row.
function sample({ run }, calls) {
  const start = now();
  for (let call = 0; call < calls; call += 1) run();
  return (now() - start) / calls;
}

// Calls in a row that take as long as a sample is to take at least; a program is warm after this.
function warmed(program) {
  const start = now();
  let [calls, each] = [1, 0];
  while (now() - start < WARM) {
    each = sample(program, calls);
    if (each * calls < LEAST_SAMPLE) calls *= 2;
  }
  return Math.ceil(LEAST_SAMPLE / each);
}

function enough(rounds, programs, spent) {
  if (rounds >= MOST_ROUNDS || (rounds >= FEWEST_ROUNDS && spent > MOST * programs)) return true;
  return rounds >= LEAST_ROUNDS && spent > USUAL * programs;
}

function time(work, measure, programs) {
  const calls = programs.map(warmed);
  const taken = programs.map(() => []);
  const start = now();
  for (let rounds = 0; !enough(rounds, programs.length, now() - start); rounds += 1) {
    programs.forEach((program, n) => taken[n].push(sample(program, calls[n])));
  }
  programs.forEach(({ name }, n) => {
    const words = ['figure', work.name, measure.name, name, measure.cells];
    console.log([...words, ...taken[n].map((each) => each.toFixed(2))].join(' '));
  });
}

// Times the programs in turns, unless the run is a check; then saves what each gives. Where a program has a start,
// the saved run begins with it and makes so many calls.
export function measured(work, measure, programs) {
  if (mode === 'time') time(work, measure, programs);
  for (const { name, start = () => {}, run, saved } of programs) {
    start();
    for (let call = 0; call < (measure.calls ?? 1); call += 1) run();
    const { buffer, byteOffset, byteLength } = saved();
    writeFileSync(join(folder, `${work.name}.${measure.name}.${name}`), new Uint8Array(buffer, byteOffset, byteLength));
  }
}

// Throws where a call of Dungdapple did not do what it was asked.
export function done(answer) {
  if (answer.number !== 0) throw new Error(`refused by ${answer.number}`);
  return answer;
}
