// The package: as it is installed, several copies of it at once, its types, its sentences, and its README's example.
import { cpSync, mkdirSync, mkdtempSync, readFileSync, rmSync, writeFileSync } from 'node:fs';
import { tmpdir } from 'node:os';
import { join } from 'node:path';
import { fileURLToPath, pathToFileURL } from 'node:url';
import * as dungdapple from '../dungdapple.mjs';
import { holds, same, tell, throws } from './counting.mjs';

const PACKAGE = new URL('../', import.meta.url);
const textOf = (name) => readFileSync(new URL(name, PACKAGE), 'utf8');
const MANIFEST = JSON.parse(textOf('package.json'));

// A package as it would be installed: the files that its manifest names, and no other.
function installed(room) {
  const place = join(room, 'node_modules', MANIFEST.name);
  mkdirSync(place, { recursive: true });
  for (const file of [...MANIFEST.files, 'package.json']) {
    cpSync(fileURLToPath(new URL(file, PACKAGE)), join(place, file));
  }
  const script = join(room, 'script.mjs');
  const inside = `./node_modules/${MANIFEST.name}/memory.mjs`;
  writeFileSync(script, `export * from '${MANIFEST.name}';\nexport { ready } from '${inside}';\n`);
  return import(pathToFileURL(script));
}

async function copyFacts() {
  const rooms = [1, 2].map(() => mkdtempSync(join(tmpdir(), 'dungdapple-')));
  try {
    const copies = await Promise.all(rooms.map(installed));
    const plan = { radius: 1, inner: 2, edge: 1, passes: 1 };
    const stored = [dungdapple, ...copies].map(({ StoredSeries }, n) => new StoredSeries(plan, 9, [8, n, 0]));
    const names = Object.keys(dungdapple);
    for (const copy of copies) same('copies: names', Object.keys(copy).filter((name) => name !== 'ready'), names);
    throws('copies: a trap of one', Error, 'started anew', () => (
      copies[0].ready().call('dungdapple_divisor', -8, 4n)));
    throws('copies: its series', Error, 'started anew', () => stored[1].edit(0, 1));
    same('copies: the others', [stored[0].edit(1, 1).number, stored[2].edit(1, 1).number], [0, 0]);
    same('copies: the others, results', stored[0].results, stored[2].results);
  } finally {
    rooms.forEach((room) => rmSync(room, { recursive: true }));
  }
}

// By its own name, with what its types declare.
async function packageFacts() {
  const byName = await import('dungdapple');
  holds('package: by name', byName.smoothSeries === dungdapple.smoothSeries);
  const types = textOf(MANIFEST.types);
  const declared = Array.from(types.matchAll(/^export (?:function|class|const) (\w+)/gm), ([, name]) => name);
  same('package: types', [...new Set(declared)].sort(), Object.keys(dungdapple).sort());
  const inner = await import('dungdapple/memory.mjs').then(() => null, (error) => error.code);
  same('package: other files are not reached by name', inner, 'ERR_PACKAGE_PATH_NOT_EXPORTED');
  same('package: no dependencies', [MANIFEST.dependencies, MANIFEST.peerDependencies], [undefined, undefined]);
}

// The sentences are those of the C header, but for a plan, which here is always four numbers; its macros and their
// limits are compared with the independent program's by the C host's test.
function sentenceFacts() {
  const header = readFileSync(new URL('../c/dungdapple.h', PACKAGE), 'utf8');
  const macros = header.matchAll(/^#define DUNGDAPPLE_(\w+) +(\d+) /gm);
  const numbers = new Map(Array.from(macros, ([, name, number]) => [name, number]));
  const cases = Array.from(header.matchAll(/case DUNGDAPPLE_(\w+):\s+return ((?:"[^"]*"\s*)+);/g));
  holds('sentences: of every number', cases.length >= 16);
  for (const [, name, strings] of cases) {
    const sentence = Array.from(strings.matchAll(/"([^"]*)"/g), ([, part]) => part).join('');
    const told = dungdapple.explain(Number(numbers.get(name)));
    same(`sentences: name of ${name}`, told.name, name.toLowerCase());
    const alike = name === 'PASSES' ? sentence.startsWith(told.sentence) : sentence === told.sentence;
    holds(`sentences: ${name}`, alike);
  }
}

// The example, with names for what it does not name.
async function readmeFacts() {
  const [, example] = textOf('README.md').match(/```js\n(.*?)```/s);
  const code = example.replace("'dungdapple'", JSON.stringify(new URL('dungdapple.mjs', PACKAGE)))
    .replace('series.edit(4, 3);', 'const edited = series.edit(4, 3);')
    .replace('series.results;', 'const moved = series.results;')
    .replace('explain(number);', 'const told = explain(number);');
  const names = ['answer', 'results', 'cells', 'edited', 'moved', 'told'];
  const ran = await import(`data:text/javascript,${encodeURIComponent(`${code}\nexport { ${names.join(', ')} };`)}`);
  same('readme: smoothing', ran.answer, { number: 0, position: 0, bad: 0 });
  same('readme: results', Array.from(ran.results), [0, 9, 9, 9, 0]);
  same('readme: whole', Array.from(ran.cells), [0, 3, 3, 3, 0]);
  same('readme: edit', ran.edited, { number: 0, position: 0, count: 2, bad: 0, from: 3, to: 5 });
  same('readme: stored', Array.from(ran.moved), [0, 9, 9, 12, 6]);
  same('readme: explained', ran.told.name, 'bound');
}

await copyFacts();
await packageFacts();
sentenceFacts();
await readmeFacts();
tell();
