// The machine, the compilers and the versions; and whether a program would run emulated here.
import { spawnSync } from 'node:child_process';
import { closeSync, openSync, readFileSync, readSync, realpathSync } from 'node:fs';
import { availableParallelism, cpus, release, totalmem, type } from 'node:os';
import { delimiter, dirname, join } from 'node:path';

export function said(command, words) {
  const { status, stdout } = spawnSync(command, words, { encoding: 'utf8', env: { ...process.env, LC_ALL: 'C' } });
  return status === 0 ? stdout.trim() : null;
}

const firstLine = (text) => text?.split('\n')[0] ?? null;
export const versionOf = (command) => firstLine(said(command, ['--version']));

function textOf(path) {
  try {
    return readFileSync(path, 'utf8');
  } catch {
    return '';
  }
}

// Emulation. Recognised are a program for another processor than /proc/cpuinfo describes, and a processor that
// /proc/cpuinfo calls by an emulator's name. An emulator that hides both is not.

const EMULATORS = /VirtualApple|QEMU TCG|QEMU Virtual CPU/;
const ELF_MACHINES = new Map([[3, 'x86'], [62, 'x86'], [40, 'Arm'], [183, 'Arm'], [243, 'RISC-V'], [21, 'POWER'],
  [22, 'S/390']]);
const DESCRIBED = [[/^vendor_id\s*: \w*(Intel|AMD|Hygon|Shanghai|Centaur|VirtualApple)/m, 'x86'],
  [/^CPU implementer\s*:/m, 'Arm'], [/^isa\s*: rv/m, 'RISC-V'], [/^cpu\s*: POWER/m, 'POWER'], [/^vendor_id\s*: IBM\/S390/m, 'S/390']];

function elfMachine(head) {
  const isElf = head.length >= 20 && head.subarray(0, 4).toString('latin1') === '\x7fELF';
  if (!isElf) return null;
  return ELF_MACHINES.get(head[5] === 2 ? head.readUInt16BE(18) : head.readUInt16LE(18)) ?? null;
}

// Why a program with these first bytes runs emulated on a processor so described; null where nothing says it does.
export function emulation(head, cpuinfo) {
  const named = EMULATORS.exec(cpuinfo);
  if (named !== null) return `the processor is ${named[0]}`;
  const [program, processor] = [elfMachine(head), DESCRIBED.find(([words]) => words.test(cpuinfo))?.[1] ?? null];
  if (program === null || processor === null || program === processor) return null;
  return `a program for ${program} on a processor of ${processor}`;
}

export function emulated(path) {
  const head = Buffer.alloc(20);
  try {
    const file = openSync(realpathSync(path), 'r');
    readSync(file, head, 0, head.length, 0);
    closeSync(file);
  } catch {
    return null;
  }
  return emulation(head, textOf('/proc/cpuinfo'));
}

// What is told of the machine.

// The folder that an interpreter was started from may be a script; where it stands itself, it says.
export const pythonProgram = (python) => said(python, ['-c', 'import sys; print(sys.executable)']);

// As the program in Python names them, and as they are called.
export const LIBRARIES = { numpy: 'numpy', scipy: 'scipy', opencv: 'OpenCV', pillow: 'Pillow' };

export function versionIn(interpreter, part) {
  const version = interpreter?.libraries[part] ?? 'absent';
  return version === 'absent' ? null : version;
}

// Every python3 of PATH with the versions of its libraries; the one that has most of them.
export function python() {
  const script = new URL('python/bench.py', import.meta.url).pathname;
  const folders = [...new Set((process.env.PATH ?? '').split(delimiter))];
  const candidates = process.env.PYTHON ? [process.env.PYTHON] : folders.map((each) => join(each, 'python3'));
  const found = candidates.map((command) => ({ command, answer: said(command, [script]) }))
    .filter(({ answer }) => answer !== null)
    .map(({ command, answer }) => ({
      command, libraries: Object.fromEntries(answer.split('\n').map((line) => line.split(' '))),
    }));
  const count = (each) => Object.keys(LIBRARIES).filter((part) => versionIn(each, part) !== null).length;
  return found.sort((one, other) => count(other) - count(one))[0] ?? null;
}

function kitClang() {
  const guide = said('rt', ['doc']);
  return guide === null ? null : versionOf(join(dirname(guide), 'toolchain/bin/clang'));
}

// hosts/build notes for which processor it compiled.
function builtFor() {
  const cpu = textOf(new URL('../target/hosts/mark', import.meta.url)).trim();
  return cpu === '' ? '' : `, for the processor "${cpu}"`;
}

export function machine({ cc, clang, flags, interpreter, postgres }) {
  const lines = [
    ['processor', `${cpus()[0]?.model ?? 'unknown'}, ${availableParallelism()} cores`],
    ['memory', `${(totalmem() / 2 ** 30).toFixed(1)} GiB`],
    ['system', `${type()} ${release()}`],
    ['Dungdapple, C', `as hosts/build makes it${builtFor()}; the kit's clang: ${kitClang() ?? 'not found'}`],
    ['CC', `${versionOf(cc)}, ${flags.join(' ')}`],
    ['clang', clang === null ? null : `${versionOf(clang)}, ${flags.join(' ')}`],
    ['node', process.version],
    ['Python', interpreter === null ? null : versionOf(interpreter.command)],
    ...Object.entries(LIBRARIES).map(([part, name]) => [name, versionIn(interpreter, part)]),
    ['PostgreSQL', postgres === null ? null : versionOf(join(postgres, 'postgres'))],
  ];
  return lines.map(([name, what]) => ({ name, what: what ?? 'not installed' }));
}
