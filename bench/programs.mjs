// Builds the C program, and runs each program on the works of a folder.
import { spawnSync } from 'node:child_process';
import { existsSync, mkdirSync, rmSync, writeFileSync } from 'node:fs';
import { join } from 'node:path';
import { fileURLToPath } from 'node:url';
import { LIBRARIES, emulated, python, pythonProgram, versionIn, versionOf } from './machine.mjs';
import { postgresFigures } from './postgres/bench.mjs';
import { binaries } from './postgres/cluster.mjs';
import { lineOf, samplesOf } from './works.mjs';

const HERE = fileURLToPath(new URL('.', import.meta.url));
const ROOT = join(HERE, '..');
const OUT = join(ROOT, 'target/bench');
const LIBRARY = join(ROOT, 'target/hosts/libdungdapple.a');
const FORMS = ['separate', 'fused', 'taps', 'outputs'];
const HARNESS = ['harness', 'smoothing', 'edits', 'conversions'];

export class Missing extends Error {}

function run(command, words, options = {}) {
  const { status, signal, error, stdout, stderr } = spawnSync(command, words, {
    encoding: 'utf8', maxBuffer: 2 ** 28, ...options,
  });
  if (status === 0) return stdout;
  throw new Error(`${command} ended by ${status ?? signal ?? error.code}: ${(stderr ?? '').trim()}`);
}

// The compilers: the first makes all, and clang, where it is another one, the forms once more.
export function compilers() {
  const cc = [process.env.CC, 'gcc', 'cc', 'clang'].find((each) => each && versionOf(each) !== null) ?? null;
  if (cc === null) throw new Missing('there is no C compiler here');
  const isClang = /clang/.test(versionOf(cc));
  return { cc, clang: !isClang && versionOf('clang') !== null ? 'clang' : null };
}

function formFlags(cc) {
  const own = ['-std=c11', '-O3', '-march=native'];
  const tried = spawnSync(cc, [...own, '-x', 'c', '-fsyntax-only', '-'], { input: '' });
  return tried.status === 0 ? own : own.slice(0, 2);
}

function build({ cc, clang }, flags) {
  if (!existsSync(LIBRARY)) throw new Missing('there is no target/hosts/libdungdapple.a; hosts/build makes it');
  mkdirSync(OUT, { recursive: true });
  const at = (name) => join(OUT, name);
  const source = (name) => join(HERE, 'c', `${name}.c`);
  const objects = [];
  const compiled = (compiler, words, name, ending) => {
    objects.push(at(`${name}-${ending}.o`));
    run(compiler, [...words, '-c', source(name), '-o', objects.at(-1)]);
  };
  for (const name of FORMS) {
    compiled(cc, [...flags, '-DCOMPILER=first'], name, 'first');
    if (clang !== null) compiled(clang, [...flags, '-DCOMPILER=clang'], name, 'clang');
  }
  const words = ['-std=c11', '-O2', '-I', join(ROOT, 'hosts/c'), ...(clang === null ? [] : ['-DWITH_CLANG'])];
  for (const name of HARNESS) compiled(cc, words, name, 'harness');
  run(cc, [...objects, LIBRARY, '-lm', '-o', at('bench')]);
  run(cc, ['-shared', '-Wl,--whole-archive', LIBRARY, '-Wl,--no-whole-archive', '-o', at('libdungdapple.so')]);
  return { program: at('bench'), shared: at('libdungdapple.so') };
}

// What can run here, and what is left out, each with its reason.
export function installed() {
  const tools = compilers();
  const flags = formFlags(tools.cc);
  const built = build(tools, flags);
  const interpreter = python();
  const postgres = binaries();
  const parts = new Set(['c', 'js']);
  const left = [];
  const take = (part, name, isThere) => (isThere ? parts.add(part) : left.push(name));
  take('clang', 'clang', tools.clang !== null);
  for (const [part, name] of Object.entries(LIBRARIES)) {
    // all of them are lent arrays of numpy
    take(part, name, versionIn(interpreter, part) !== null && versionIn(interpreter, 'numpy') !== null);
  }
  take('postgresql', 'PostgreSQL', postgres !== null);
  return { ...tools, ...built, flags, interpreter, postgres, parts, left };
}

// Which of them would run emulated, and why.
export function emulatedHere({ program, interpreter, postgres }) {
  const places = [
    ['C', program],
    ['node', process.execPath],
    ['Python', interpreter === null ? null : pythonProgram(interpreter.command)],
    ['PostgreSQL', postgres === null ? null : join(postgres, 'postgres')],
  ];
  return places.filter(([, path]) => path !== null)
    .map(([name, path]) => ({ name, why: emulated(path) }))
    .filter(({ why }) => why !== null);
}

// A folder with the works, for the programs to read.
export function laid(name, works) {
  const folder = join(OUT, name);
  rmSync(folder, { recursive: true, force: true });
  mkdirSync(folder, { recursive: true });
  writeFileSync(join(folder, 'works'), works.map((work) => `${lineOf(work)}\n`).join(''));
  for (const work of works) writeFileSync(join(folder, `${work.name}.samples`), new Uint8Array(samplesOf(work).buffer));
  return folder;
}

// Runs all that is installed, one after another, each in the mode of its name: `check` or `time`. Gives the lines of
// the figures. `inPostgres` are the works for PostgreSQL.
export function ran(modeOf, folder, here, inPostgres, tell = () => {}) {
  const { program, shared, interpreter, postgres, parts } = here;
  const lines = [];
  const add = (name, printed) => {
    tell(name);
    lines.push(...printed(modeOf(name)).split('\n').filter((line) => line.startsWith('figure ')));
  };
  add('C', (mode) => run(program, [mode, folder]));
  add('node', (mode) => run(process.execPath, [join(HERE, 'js/bench.mjs'), mode, folder]));
  // threads of a library would be measured against one of ours
  const env = { ...process.env, OMP_NUM_THREADS: '1', OPENBLAS_NUM_THREADS: '1', PYTHONDONTWRITEBYTECODE: '1' };
  if (parts.has('numpy')) {
    add('Python', (mode) => run(interpreter.command, [join(HERE, 'python/bench.py'), mode, folder, shared], { env }));
  }
  if (postgres !== null) {
    add('PostgreSQL', (mode) => postgresFigures(mode, folder, inPostgres, postgres).join('\n'));
  }
  return lines;
}
