// Runs commands, several at once, and collects what they print.
import { execFile } from 'node:child_process';
import { availableParallelism } from 'node:os';

const MOST_OUTPUT = 2 ** 22;

// Runs a command and lends its standard input to `feed`. Gives what it printed, a character a byte, and how it ended:
// its status, the signal that ended it, or why it did not run. A limit of 0 seconds is none.
export function run([command, ...words], feed, seconds = 0) {
  const options = { encoding: 'latin1', timeout: 1_000 * seconds, killSignal: 'SIGKILL', maxBuffer: MOST_OUTPUT };
  return new Promise((resolve) => {
    const child = execFile(command, words, options, (error, stdout, stderr) => {
      resolve({ stdout, stderr, ended: error === null ? 0 : error.signal ?? error.code });
    });
    // A command may stop reading early. What it prints then tells.
    child.stdin.on('error', () => {});
    feed(child.stdin);
  });
}

// The results of `work` on these items, in their order, with a few more at work than there are processors.
export async function severalAtOnce(items, work) {
  const results = [];
  const waiting = [...items.entries()];
  const worker = async () => {
    for (let next = waiting.shift(); next !== undefined; next = waiting.shift()) {
      const [at, item] = next;
      results[at] = await work(item);
    }
  };
  await Promise.all(Array.from({ length: 2 + availableParallelism() }, worker));
  return results;
}
