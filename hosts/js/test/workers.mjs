// The module in several threads at once, each of which has its own.
import { Worker } from 'node:worker_threads';
import { holds, same, tell } from './counting.mjs';
import { edits } from './work.mjs';

function shared(Kind, count) {
  return new Kind(new SharedArrayBuffer(count * Kind.BYTES_PER_ELEMENT));
}

function inWorker(workerData) {
  return new Promise((resolve, reject) => {
    const worker = new Worker(new URL('worker.mjs', import.meta.url), { workerData });
    worker.on('message', resolve);
    worker.on('error', reject);
  });
}

async function workerFacts() {
  const samples = shared(Int32Array, 3_000).map((_, n) => (n * 37) % 2_001 - 1_000);
  const common = shared(Int32Array, 3_000);
  common.set(samples);
  const jobs = [1, 2, 3].map((seed) => ({ seed, shared: common, smoothed: shared(BigInt64Array, 3_000) }));
  const running = jobs.slice(1).map(inWorker);
  const here = edits(jobs[0]);
  const outcomes = [here, ...await Promise.all(running)];
  for (const { results, fresh } of outcomes) same('workers: edits and a fresh smoothing', results, fresh);
  for (const { smoothed } of jobs) {
    same('workers: shared samples', Array.from(smoothed), Array.from(jobs[0].smoothed));
  }
  // the same seed in another thread and here
  for (const [n, { seed }] of jobs.entries()) {
    const again = edits({ seed, shared: common, smoothed: shared(BigInt64Array, 3_000) });
    same('workers: the same in every thread', again, outcomes[n]);
  }
  holds('workers: seeds differ', outcomes[1].samples.some((sample, n) => sample !== outcomes[2].samples[n]));
}

await workerFacts();
tell();
