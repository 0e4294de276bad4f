// Runs the README's examples, each a block of shell with the text that it prints behind it, and compares what is
// printed. The gate's own block, whose text leaves lines out, is not run. One that needs a C compiler is left out
// where there is none.
import { spawnSync } from 'node:child_process';
import { readFileSync } from 'node:fs';
import { fileURLToPath } from 'node:url';

const ROOT = fileURLToPath(new URL('..', import.meta.url));
const EXAMPLE = /^```sh\n((?:.*\n)*?)```\n```text\n((?:.*\n)*?)```$/gm;

const readme = readFileSync(new URL('../README.md', import.meta.url), 'utf8');
const examples = Array.from(readme.matchAll(EXAMPLE), ([, shell, text]) => ({ shell, text }));

function has(command) {
  return spawnSync('sh', ['-c', `command -v ${command}`]).status === 0;
}

function leftOut({ shell, text }) {
  if (text.startsWith('..\n')) return 'the gate itself';
  return /^cc /m.test(shell) && !has('cc') ? 'there is no C compiler' : null;
}

let passed = 0;
let failed = 0;

for (const example of examples) {
  const first = example.shell.split('\n')[0];
  const reason = leftOut(example);
  if (reason !== null) {
    console.log(`left out, ${reason}: ${first}`);
    continue;
  }
  const { stdout, stderr, status } = spawnSync('bash', ['-euo', 'pipefail'], {
    cwd: ROOT, encoding: 'utf8', input: example.shell,
  });
  if (status === 0 && stdout === example.text) {
    passed += 1;
    continue;
  }
  failed += 1;
  console.log(`${first}\n  expected ${JSON.stringify(example.text)}\n  got      ${JSON.stringify(stdout)}`);
  console.log(`  status ${status}\n${stderr}`);
}

// Three ways in: by the command, from C, from JavaScript.
if (examples.length < 4) {
  failed += 1;
  console.log(`the README has ${examples.length} examples in place of four`);
}
console.log(`${passed} passed, ${failed} failed`);
if (failed > 0) process.exitCode = 1;
