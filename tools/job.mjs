// Job records by hand: numbers typed at the shell become a record on standard output, and `--read` turns a record
// into such arguments again. A value only has to fit its field; whether the job is a good one, the program says.
import {
  MOST_SAMPLES, NUMBER_FIELDS, readRecord, recordLength, samplesIn, writeRecord,
} from '../reference/record.mjs';

const SAMPLE = { least: -(2n ** 31n), most: 2n ** 31n - 1n };
const OPTIONS = new Map(NUMBER_FIELDS.map(({ name, bytes }) => (
  [`--${name}`, { name, least: 0n, most: 256n ** BigInt(bytes) - 1n }])));

const USAGE = [
  `usage: node tools/job.mjs ${[...OPTIONS.keys()].map((option) => `${option} N`).join(' ')} SAMPLE.. > JOB`,
  '       node tools/job.mjs --read < JOB',
  'The first writes a job record; the second prints the arguments that would write this one.',
  ...Array.from(OPTIONS, ([option, { least, most }]) => `  ${option.padEnd(9)} ${least} to ${most}`),
  `  ${'SAMPLE'.padEnd(9)} ${SAMPLE.least} to ${SAMPLE.most}, 1 to ${MOST_SAMPLES} of them`,
].join('\n');

class Refusal extends Error {}

// What was typed, on one line whatever is in it.
const quoted = (typed) => (typed === undefined ? 'without a value' : JSON.stringify(typed));
const allowed = ({ least, most }) => `allowed is a whole number from ${least} to ${most}`;

function numberIn(range, name, typed) {
  const number = /^-?[0-9]+$/.test(typed) ? BigInt(typed) : null;
  if (number !== null && number >= range.least && number <= range.most) return number;
  throw new Refusal(`${name} is ${quoted(typed)}; ${allowed(range)}`);
}

function jobOf(args) {
  const job = { samples: [] };
  const waiting = [...args];
  while (waiting.length > 0) {
    const typed = waiting.shift();
    const option = OPTIONS.get(typed);
    if (option !== undefined) {
      if (option.name in job) throw new Refusal(`${typed} is given twice; allowed is once`);
      job[option.name] = numberIn(option, typed, waiting.shift());
    } else if (typed.startsWith('--')) {
      throw new Refusal(`${quoted(typed)} is no option; allowed are ${[...OPTIONS.keys()].join(', ')}, each once`);
    } else {
      job.samples.push(numberIn(SAMPLE, `sample ${job.samples.length}`, typed));
    }
  }
  return job;
}

function recordOf(args) {
  const job = jobOf(args);
  for (const [option, field] of OPTIONS) {
    if (!(field.name in job)) throw new Refusal(`${option} is missing; ${allowed(field)}`);
  }
  const count = job.samples.length;
  const { number, record } = writeRecord({ ...job, record: new Uint8Array(recordLength(count)) });
  if (number === 0n) return record;
  throw new Refusal(`samples given: ${count}; allowed are 1 to ${MOST_SAMPLES}`);
}

function argumentsOf(record) {
  const job = readRecord({ record });
  if (job.number !== 0n) throw new Refusal(`standard input is no well-formed job record (${job.number})`);
  const options = Array.from(OPTIONS, ([option, { name }]) => `${option} ${job[name]}`);
  return [...options, ...samplesIn(record, job.start, job.length)].join(' ');
}

async function standardInput() {
  const chunks = [];
  for await (const chunk of process.stdin) chunks.push(chunk);
  return Uint8Array.from(Buffer.concat(chunks));
}

// What goes to standard output.
async function answerTo(args) {
  if (args.length === 0) throw new Refusal(USAGE);
  if (args.includes('--help')) return `${USAGE}\n`;
  if (!args.includes('--read')) return recordOf(args);
  if (args.length > 1) throw new Refusal('--read is given with other arguments; allowed is --read alone');
  return `${argumentsOf(await standardInput())}\n`;
}

// A reader that went away has said why itself.
process.stdout.on('error', (error) => {
  if (error.code !== 'EPIPE') console.error(`job: standard output: ${error.message}`);
  process.exit(1);
});
try {
  process.stdout.write(await answerTo(process.argv.slice(2)));
} catch (error) {
  if (!(error instanceof Refusal)) throw error;
  console.error(error.message === USAGE ? USAGE : `job: ${error.message}`);
  process.exitCode = 2;
}
