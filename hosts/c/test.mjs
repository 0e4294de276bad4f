// Tests the C host: `node hosts/c/test.mjs [LIBRARY]`, by itself with target/hosts/libdungdapple.a, which hosts/build
// makes. CC and CXX name other compilers. Where there is no C compiler, nothing is tested.
import { spawnSync } from 'node:child_process';
import { closeSync, copyFileSync, existsSync, mkdirSync, mkdtempSync, openSync, readFileSync, rmSync } from 'node:fs';
import { tmpdir } from 'node:os';
import { dirname, join, resolve } from 'node:path';
import { fileURLToPath } from 'node:url';
import * as limits from '../../reference/limits.mjs';
import { MOST_SAMPLES, recordLength } from '../../reference/record.mjs';
import { holds, same, tell } from '../../reference/testing.mjs';

const HERE = dirname(fileURLToPath(import.meta.url));
const ROOT = join(HERE, '../..');
const LIBRARY = resolve(process.argv[2] ?? join(ROOT, 'target/hosts/libdungdapple.a'));
const STREAM = join(ROOT, 'crates/calls/stdin');
const LINES = join(ROOT, 'crates/calls/stdout');
const EXPORTS = join(ROOT, 'crates/dungdapple_c/src/lib.rt');
const HEADER = join(HERE, 'dungdapple.h');

const MOST_SHOWN = 200;

const WARNINGS = [
  '-Wall', '-Wextra', '-Wpedantic', '-Wconversion', '-Wsign-conversion', '-Wshadow', '-Wcast-qual', '-Wcast-align',
  '-Wundef', '-Wformat=2', '-Wswitch-enum', '-Wdouble-promotion', '-Werror',
];
const C_WARNINGS = [...WARNINGS, '-Wstrict-prototypes', '-Wmissing-prototypes', '-Wc++-compat'];
const CXX_WARNINGS = [...WARNINGS, '-Wold-style-cast'];
const C_STANDARDS = ['c99', 'c11', 'c17'];
const CXX_STANDARDS = ['c++11', 'c++17', 'c++20'];
const SANITIZED = ['-fsanitize=address,undefined', '-fno-sanitize-recover=all', '-g'];

const room = mkdtempSync(join(tmpdir(), 'dungdapple-'));
process.on('exit', () => rmSync(room, { recursive: true, force: true }));

const own = (name) => join(HERE, name);
const text = (path) => readFileSync(path, 'latin1');

function run(command, words, { input = '', from } = {}) {
  const file = from === undefined ? null : openSync(from, 'r');
  const stdio = [file ?? 'pipe', 'pipe', 'pipe'];
  // compilers speak plain English
  const env = { ...process.env, LC_ALL: 'C' };
  const options = { input: file === null ? input : undefined, stdio, env, encoding: 'latin1', maxBuffer: 2 ** 24 };
  const { status, signal, error, stdout, stderr } = spawnSync(command, words, options);
  if (file !== null) closeSync(file);
  return { ended: status ?? signal ?? error.code, stdout: stdout ?? '', stderr: stderr ?? '' };
}

const firstOf = (commands) => commands.find((command) => command && run(command, ['--version']).ended === 0);

function shown(said) {
  return said.length > MOST_SHOWN ? `${said.slice(0, MOST_SHOWN)}..` : said;
}

// A program of these words, or null where the compiler has a complaint, which is a failure.
function built(compiler, name, words) {
  const program = join(room, name);
  const { ended, stderr } = run(compiler, ['-I', HERE, ...words, LIBRARY, '-pthread', '-o', program]);
  same(`${name} is built without a warning`, [ended, shown(stderr)], [0, '']);
  return ended === 0 ? program : null;
}

// The header by itself: compiled as it stands, twice included, under every warning.
function tryHeader(compiler, language, standards, warnings) {
  const input = '#include "dungdapple.h"\n#include "dungdapple.h"\n';
  for (const standard of standards) {
    const words = ['-x', language, `-std=${standard}`, ...warnings, '-I', HERE, '-fsyntax-only', '-'];
    const { ended, stderr } = run(compiler, words, { input });
    same(`the header as ${standard}`, [ended, shown(stderr)], [0, '']);
  }
}

// The header declares the crate's exports, no other and each as it is. A slice is a pointer and a length.

const ELEMENTS = { f64: 'double', i32: 'int32_t', i64: 'int64_t', u8: 'uint8_t', u32: 'uint32_t' };

function asC(name, type) {
  const [, lent, slice, element] = /^(&mut |&)?(\[)?(\w+)\]?$/.exec(type);
  const shared = lent === '&' ? 'const ' : '';
  const first = lent === undefined ? `${ELEMENTS[element]} ${name}` : `${shared}${ELEMENTS[element]} *${name}`;
  return slice === undefined ? first : `${first}, size_t ${name}_length`;
}

function exportsOfCrate() {
  const found = text(EXPORTS).matchAll(/pub extern "C" fn (\w+)\(([^)]*)\)(?: -> (\w+))?/g);
  return Array.from(found, ([, name, taken, given]) => {
    const parameters = taken.split(',').map((each) => each.trim()).filter((each) => each !== '');
    const words = parameters.map((each) => asC(...each.split(': '))).join(', ');
    return `${given === undefined ? 'void' : ELEMENTS[given]} ${name}(${words})`;
  });
}

function declarationsOfHeader() {
  const code = text(HEADER).replaceAll(/\/\*[^]*?\*\//g, '');
  return Array.from(code.matchAll(/^(\w+ dungdapple_\w+\([^)]*\));/gm), ([, declaration]) => (
    declaration.replaceAll(/\s+/g, ' ').replaceAll('( ', '(')));
}

function tryDeclarations() {
  const [wanted, got] = [exportsOfCrate(), declarationsOfHeader()];
  holds('the crate has exports', wanted.length > 0);
  same('exports declared', got.length, wanted.length);
  wanted.forEach((declaration, n) => same('a declaration', got[n], declaration));
}

// The header's limits are those of the table.

const LIMITS = {
  PASSES: limits.MOST_PASSES, RADIUS: limits.MOST_RADIUS, INNER: limits.MOST_INNER, BOUND: limits.MOST_BOUND,
  PRODUCT: limits.MOST_PRODUCT, SAMPLES: limits.MOST_CELLS, SIDE: limits.MOST_SIDE, SIGMA: limits.MOST_SIGMA,
  RECORD_SAMPLES: MOST_SAMPLES,
};

function tryLimits() {
  const found = text(HEADER).matchAll(/^#define DUNGDAPPLE_MOST_(\w+) +(\d+)/gm);
  const stated = Object.fromEntries(Array.from(found, ([, name, number]) => [name, number]));
  same('limits named', Object.keys(stated).sort(), Object.keys(LIMITS).sort());
  for (const [name, limit] of Object.entries(LIMITS)) same(`limit ${name}`, stated[name], String(limit));
  same('bytes of a record', text(HEADER).match(/return 27 \+ 4 \* samples;/)?.length, 1);
  same('the reference on it', [recordLength(0), recordLength(1)], [27, 31]);
}

// The library shows the calls and no other name, asks of the C library what the header says, and has no variable, so
// calls share nothing.
function tryNames() {
  const { ended, stdout } = run('nm', ['-P', LIBRARY]);
  if (ended !== 0) {
    console.log('there is no nm here: the names in the library were not read');
    return;
  }
  const names = stdout.split('\n').map((line) => line.split(' ')).filter((words) => words.length > 1);
  const ofKind = (kinds) => names.filter(([, kind]) => kinds.test(kind)).map(([name]) => name);
  const shows = ofKind(/^[A-TV-Z]$/);
  const declared = declarationsOfHeader().map((declaration) => /dungdapple_\w+/.exec(declaration)[0]);
  same('names that the library shows', shows.sort(), declared.sort());
  same('names that it asks for', ofKind(/^U$/).filter((name) => !shows.includes(name)), ['memset']);
  same('variables in it', ofKind(/^[bcdgs]$/i), []);
}

// An engine's extension is a shared object.
function tryShared(compiler) {
  const words = ['-shared', '-Wl,--whole-archive', LIBRARY, '-Wl,--no-whole-archive', '-Wl,-z,defs'];
  const { ended, stderr } = run(compiler, [...words, '-o', join(room, 'shared.so')]);
  same('the library within a shared object', [ended, shown(stderr)], [0, '']);
}

// A program that counts its own checks: its last line does.
function tryCounting(program, name) {
  if (program === null) return;
  const { ended, stdout, stderr } = run(program, []);
  const said = stdout.trimEnd().split('\n');
  same(`${name}: status`, [ended, shown(stderr)], [0, '']);
  holds(`${name}: ${said.at(-1)}`, /^[1-9]\d* passed, 0 failed$/.test(said.at(-1)));
  // the stack's lines say how much was measured
  if (ended !== 0 || name === 'stack') said.slice(0, -1).forEach((line) => console.log(`${name}: ${line}`));
}

function tryExample(program, name) {
  if (program === null) return;
  const { ended, stdout, stderr } = run(program, []);
  same(`${name}: status`, [ended, shown(stderr)], [0, '']);
  same(name, stdout, text(own('example.txt')));
}

// The page's own line, with a folder of the test's in place of target/hosts, and what it says is printed.
function tryPage(compiler) {
  const page = text(own('README.md'));
  const line = /^cc .*$/m.exec(page)?.[0] ?? '';
  mkdirSync(join(room, 'hosts'));
  copyFileSync(LIBRARY, join(room, 'hosts/libdungdapple.a'));
  const script = line.replace(/^cc/, compiler).replaceAll('target/hosts', join(room, 'hosts'));
  const { ended, stdout, stderr } = run('sh', ['-c', `cd "$0" && ${script}`, ROOT]);
  same('the line of README.md', [ended, shown(stderr)], [0, '']);
  holds('what README.md shows', stdout !== '' && page.includes(`\n\`\`\`text\n${stdout}\`\`\`\n`));
}

// The lines of the stream. Where the stream lends an edit or a point work of another length than asked, the line has
// only the number that C's call gives, which is lent none: the stream's is 8, unless that is lower.

const UNLENT = /^unlent (\d+)$/;

function sameLine(name, got, wanted) {
  const unlent = UNLENT.exec(got ?? '');
  if (unlent === null) {
    same(name, got, wanted);
    return false;
  }
  const number = Number(unlent[1]);
  same(`${name}, lent other work`, Number(wanted.split(' ')[0]), number > 0 && number < 8 ? number : 8);
  return true;
}

function tryVectors(program, name) {
  if (program === null) return;
  const { ended, stdout, stderr } = run(program, [], { from: STREAM });
  same(`${name}: status`, [ended, shown(stderr)], [0, '']);
  const [got, wanted] = [stdout, text(LINES)].map((lines) => lines.split('\n').slice(0, -1));
  same(`${name}: lines`, got.length, wanted.length);
  const unlent = wanted.filter((line, n) => sameLine(`${name}, line ${n + 1}`, got[n], line));
  // that all of them are left out would be no test
  holds(`${name}: ${unlent.length} of ${wanted.length} lines lend other work`, 50 * unlent.length < wanted.length);
}

// Ends of a stream that the stored one does not have.
function tryEnds(program) {
  if (program === null) return;
  const words = (...list) => {
    const bytes = Buffer.alloc(8 * list.length);
    list.forEach((word, n) => bytes.writeBigInt64BE(BigInt(word), 8 * n));
    return bytes;
  };
  const planner = words(5, 500, 3, 16);
  const ends = [
    ['no words', words(), ''],
    ['one call', planner, '0 4 7\n'],
    ['a call broken off', Buffer.concat([planner, words(5, 500, 3)]), '0 4 7\n'],
    ['a word broken off', Buffer.concat([planner, Buffer.from([1, 2, 3])]), '0 4 7\n'],
    ['a number of no call', Buffer.concat([planner, words(99), planner]), '0 4 7\n'],
    ['a slice too long', Buffer.concat([planner, words(13, 131_073), planner]), '0 4 7\nstop\n'],
    ['a slice broken off', Buffer.concat([planner, words(13, 131_072, 0)]), '0 4 7\n'],
  ];
  for (const [name, input, wanted] of ends) {
    const { ended, stdout } = run(program, [], { input });
    same(`vectors, ${name}`, [ended, stdout], [0, wanted]);
  }
}

function tryPrograms(compiler) {
  const words = ['-std=c99', '-O2', ...C_WARNINGS];
  tryExample(built(compiler, 'example', [...words, own('example.c')]), 'example');
  tryCounting(built(compiler, 'stack', [...words, own('stack.c')]), 'stack');
  tryCounting(built(compiler, 'hostile', [...words, own('hostile.c')]), 'hostile');
  const vectors = built(compiler, 'vectors', [...words, own('vectors.c')]);
  tryVectors(vectors, 'vectors');
  tryEnds(vectors);
}

function isSanitized(compiler) {
  const input = 'int main(void) { return 0; }\n';
  const program = join(room, 'sanitized');
  const compiled = run(compiler, ['-x', 'c', ...SANITIZED, '-', '-o', program], { input });
  return compiled.ended === 0 && run(program, []).ended === 0;
}

function trySanitized(compiler) {
  if (!isSanitized(compiler)) {
    console.log(`${compiler} has no sanitizers: the C side was not run under them`);
    return;
  }
  const words = ['-std=c99', '-O1', ...SANITIZED];
  tryExample(built(compiler, 'example-sanitized', [...words, own('example.c')]), 'example, sanitized');
  tryCounting(built(compiler, 'hostile-sanitized', [...words, own('hostile.c')]), 'hostile, sanitized');
  tryVectors(built(compiler, 'vectors-sanitized', [...words, own('vectors.c')]), 'vectors, sanitized');
}

function tryCxx(compiler) {
  tryHeader(compiler, 'c++', CXX_STANDARDS, CXX_WARNINGS);
  const words = ['-x', 'c++', '-std=c++11', '-O2', ...CXX_WARNINGS, own('example.c'), '-x', 'none'];
  tryExample(built(compiler, 'example-cxx', words), 'example as C++');
}

const cc = firstOf([process.env.CC, 'cc', 'gcc', 'clang']);
const cxx = firstOf([process.env.CXX, 'c++', 'g++', 'clang++']);
if (cc === undefined) {
  console.log('there is no C compiler here: the C host was left out');
} else {
  tryDeclarations();
  tryLimits();
  tryHeader(cc, 'c', C_STANDARDS, C_WARNINGS);
  if (existsSync(LIBRARY)) {
    tryNames();
    tryShared(cc);
    tryPrograms(cc);
    tryPage(cc);
    trySanitized(cc);
    if (cxx === undefined) console.log('there is no C++ compiler here: the header was tried as C alone');
    else tryCxx(cxx);
  } else {
    holds(`there is ${LIBRARY}, which hosts/build makes`, false);
  }
}
tell();
