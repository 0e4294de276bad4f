// Runs all tests of the package: `node hosts/js/test.mjs`. The last line counts their checks.
import { execFile } from 'node:child_process';
import { fileURLToPath } from 'node:url';

const TESTS = ['vectors', 'taken', 'hostile', 'arrays', 'breaks', 'demands', 'stored', 'workers', 'package'];
const COUNTS = /^(\d+) passed, (\d+) failed$/;

// What a test printed, and its last line's counts. One that ends otherwise than by its counts has failed.
function outcome(name) {
  const file = fileURLToPath(new URL(`test/${name}.mjs`, import.meta.url));
  return new Promise((resolve) => {
    execFile(process.execPath, [file], { maxBuffer: 2 ** 24 }, (error, stdout, stderr) => {
      const lines = stdout.trimEnd().split('\n');
      const [, passed = '0', failed = '1'] = lines.at(-1).match(COUNTS) ?? [];
      const broken = error !== null && failed === '0';
      resolve({ name, lines, stderr, passed: Number(passed), failed: Number(failed) + (broken ? 1 : 0) });
    });
  });
}

let [passed, failed] = [0, 0];
const outcomes = TESTS.map(outcome);
for (const ended of outcomes) {
  const { name, lines, stderr, passed: more, failed: less } = await ended;
  lines.forEach((line) => console.log(`${name}: ${line}`));
  if (stderr !== '') console.log(`${name}: ${stderr.trimEnd()}`);
  [passed, failed] = [passed + more, failed + less];
}
console.log(`${passed} passed, ${failed} failed`);
if (failed > 0) process.exitCode = 1;
