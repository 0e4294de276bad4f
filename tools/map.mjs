// Holds docs/PROMISES.md, docs/LAWS.md and docs/EXCEPTIONS.md to the tree. Every backticked name has to be there, and be what its
// column says: a definition, a theorem, a must-fail edit. Every must-fail edit and every theorem of `promises` has to
// be named, and every public call with a theorem that it has one outcome and with two edits. Every export has the clause
// of the call that it stands for. What a theorem says is not read: that is for a person.
import { existsSync, readFileSync, readdirSync } from 'node:fs';
import { dirname, join } from 'node:path';
import { fileURLToPath } from 'node:url';

const ROOT = join(dirname(fileURLToPath(import.meta.url)), '..');
const MAP = 'docs/PROMISES.md';
const DOCUMENTS = [MAP, 'docs/LAWS.md', 'docs/EXCEPTIONS.md'];
const LEAST_EDITS = 2;

const exists = (path) => existsSync(join(ROOT, path));
const linesOf = (path) => readFileSync(join(ROOT, path), 'utf8').split('\n');

function filesIn(folder, ending) {
  if (!exists(folder)) return [];
  const names = readdirSync(join(ROOT, folder), { recursive: true });
  return names.filter((name) => name.endsWith(ending)).map((name) => `${folder}/${name}`).sort();
}

// A crate and those it may name. A static library's exports stand for the calls of the library below it.
const LISTED = linesOf('crates.txt').map((line) => line.match(/^(\w+)( staticlib)?:(.*)$/)).filter(Boolean);
const CRATES = new Map(LISTED.map(([, crate, , others]) => [crate, [crate, ...others.split(' ').filter(Boolean)]]));
const EXPORTING = LISTED.filter(([, , isStatic]) => isStatic !== undefined).map(([, crate]) => crate);
const crates = [...CRATES.keys()];

let passed = 0;
let failed = 0;

function holds(fact, fault) {
  if (fact) {
    passed += 1;
    return;
  }
  failed += 1;
  console.log(fault);
}

// Names of specifications: a signature at the start of its line, and records and data with their fields and cases.
// A plain signature is taken for a theorem. What stands below a `where` of its own line is a step of one proof.

const BLOCK = /^(\s*)(?:pub )?(?:(?:record|data) (\S+).* where$|(where)$)/;
const SIGNATURE = /^(\s*)(abbrev |unfoldable )?(pub )?([^\s(){}]+) :(?:\s|$)/;

function specNames(path) {
  const names = [];
  let block = null;
  for (const line of linesOf(path)) {
    if (line.trim() === '' || line.trim().startsWith('--')) continue;
    const depth = line.search(/\S/);
    if (block !== null && depth <= block.depth) block = null;
    const opened = line.match(BLOCK);
    const signed = line.match(SIGNATURE);
    if (block === null && opened !== null) {
      block = { depth, local: opened[3] !== undefined };
      if (!block.local) names.push({ path, name: opened[2], kind: 'definition', open: /^\s*pub /.test(line) });
    } else if (signed !== null && !block?.local) {
      const kind = block !== null || signed[2] !== undefined ? 'definition' : 'theorem';
      names.push({ path, name: signed[4], kind, open: signed[3] !== undefined });
    }
  }
  return names;
}

// Names of code. `within` is the type whose impl or enum they stand in.

const TYPE = /^(?:pub(?:\(crate\))? )?(impl|enum|struct) (\w+) \{$/;
const ITEM = /^ *(pub(?:\(crate\))? )?(?:extern "C" )?(fn|const|struct|enum|mod) (\w+)/;
const CASE_OR_FIELD = /^ {4}(pub )?(\w+)(?:[,(]|: )/;

function codeNames(path) {
  const names = [];
  let within = null;
  linesOf(path).forEach((line, at, lines) => {
    const type = line.match(TYPE);
    const item = line.match(ITEM);
    const part = within !== null && within.kind !== 'impl' ? line.match(CASE_OR_FIELD) : null;
    if (item !== null) {
      const contract = item[2] === 'fn' ? contractOf(lines, at) : '';
      names.push({ path, name: item[3], kind: item[2], open: item[1] === 'pub ', within: within?.name, contract });
    } else if (part !== null) {
      names.push({ path, name: part[2], kind: 'part', open: true, within: within.name });
    }
    if (type !== null) within = { kind: type[1], name: type[2] };
    if (line === '}') within = null;
  });
  return names;
}

// What stands between a function's name and its body.
function contractOf(lines, at) {
  const end = lines.findIndex((line, n) => n >= at && /^\s*\{\}?$|\) (-> .+ )?\{$/.test(line));
  return lines.slice(at, end).join('\n');
}

// A crate's own lemmas lie right in its proofs/, and what else is there answers goals.
const isLemmas = (path) => /^crates\/\w+\/proofs\/\w+\.antt$/.test(path);
const antt = (crate) => [
  ...filesIn(`crates/${crate}/specs`, '.antt'), ...filesIn(`crates/${crate}/proofs`, '.antt').filter(isLemmas)];
const SPECS = crates.flatMap(antt).flatMap(specNames);
const CODE = crates.flatMap((crate) => filesIn(`crates/${crate}/src`, '.rt')).flatMap(codeNames);
const EDITS = crates.flatMap((crate) => filesIn(`crates/${crate}/must-fail`, '.edit'));

const crateOf = (path) => path.split('/')[1];
const PROMISED = SPECS.filter(({ path, kind, open }) => (
  path.startsWith('crates/promises/specs/') && kind === 'theorem' && open));

const editPath = (name) => name.replace(/^(\w+)\/(\w+)$/, 'crates/$1/must-fail/$2.edit');
const isEdit = (name) => EDITS.includes(editPath(name));

// A path of code: crate::item, crate::inner::item, Type::item.
function isCodePath(name) {
  const parts = name.split('::');
  const last = parts.pop();
  const [first, module = 'lib'] = parts;
  return CODE.some((each) => each.name === last && each.open && (CRATES.has(first)
    ? each.path === `crates/${first}/src/${module}.rt` && each.within === undefined
    : each.within === first && parts.length === 1));
}

// A law, with the crate that has it.
function isLawPath(name) {
  const [crate, last] = name.split('::');
  return SPECS.some((each) => each.name === last && each.kind === 'theorem' && crateOf(each.path) === crate);
}

// What a name has to be, by the head of its column. A law may have the name of a promise, so it stands there with its
// crate, or in a column of laws.
const isDefinition = (name) => SPECS.some((each) => each.name === name && each.kind === 'definition');
const isPromise = (name) => PROMISED.some((each) => each.name === name);
const isContract = (name) => CODE.some((each) => each.name === name && each.kind === 'fn') || isCodePath(name);
const isName = (name) => [...SPECS, ...CODE].some((each) => each.name === name);

const PROMISE = ['no theorem of `promises`', isPromise];
const COLUMNS = {
  definition: ['no definition', isDefinition],
  theorem: ['no theorem of `promises`, nor law with its crate', (name) => (
    isPromise(name) || isLawPath(name) || isContract(name))],
  law: ['no law of `theory`', (name) => isLawPath(`theory::${name}`)],
  'lowest number': PROMISE,
  'done exactly': PROMISE,
  position: PROMISE,
  'bad samples': PROMISE,
  refused: PROMISE,
  'one outcome': PROMISE,
  'must-fail edits': ['no must-fail edit', isEdit],
};
const ANYWHERE = ['nowhere in the tree', (name) => {
  if (name.includes('::')) return isCodePath(name) || isLawPath(name);
  if (name.includes('/')) return isEdit(name) || exists(name);
  return CRATES.has(name) || isName(name);
}];

// The documents: each backticked name with the head of its column, and tables as rows by these heads.

const cellsOf = (line) => line.split(/(?<!\\)\|/).slice(1, -1).map((cell) => cell.trim());
const namesIn = (text) => Array.from(text.matchAll(/`([^`]*)`/g), ([, name]) => name);

function read(document) {
  const names = [];
  const rows = [];
  let heads = null;
  linesOf(document).forEach((line, at, lines) => {
    const place = `${document}:${at + 1}`;
    if (!line.startsWith('|')) heads = null;
    else if (lines[at + 1]?.startsWith('|--')) heads = cellsOf(line);
    const cells = heads === null ? [line] : cellsOf(line);
    cells.forEach((cell, n) => names.push(...namesIn(cell).map((name) => ({ name, place, head: heads?.[n] }))));
    if (heads !== null) rows.push({ place, ...Object.fromEntries(heads.map((head, n) => [head, cells[n] ?? ''])) });
  });
  return { names, rows };
}

const documents = DOCUMENTS.map(read);
const [map] = documents;
const named = new Set(map.names.map(({ name }) => name));

for (const { name, place, head } of documents.flatMap(({ names }) => names)) {
  const [fault, test] = COLUMNS[head] ?? ANYWHERE;
  const isPath = head !== 'must-fail edits' && name.includes('/') && !isEdit(name) && exists(name);
  holds(isPath || test(name), `${place}: \`${name}\` is ${fault}`);
}

// A number in a column of vectors is that of a file of them.
const vectors = new Set(readdirSync(join(ROOT, 'reference/vectors')).map((file) => parseInt(file, 10)));
for (const { place, vectors: cell = '' } of map.rows) {
  for (const [number] of cell.matchAll(/\d+/g)) {
    holds(vectors.has(Number(number)), `${place}: there are no vectors of call ${number}`);
  }
}

// Nothing of the tree is missing in the map.
for (const path of EDITS) {
  const name = `${crateOf(path)}/${path.split('/').pop().replace('.edit', '')}`;
  holds(named.has(name), `${MAP}: the must-fail edit \`${name}\` is not named`);
}
for (const { name, path } of PROMISED) {
  holds(named.has(name), `${MAP}: the theorem \`${name}\` of ${path} is not named`);
}

// The public calls: functions at the root of a library, and those of its types. Its one open module is ours.
const roots = CODE.filter(({ open, path }) => (
  open && path.endsWith('src/lib.rt') && !EXPORTING.includes(crateOf(path))));
const calls = roots.filter(({ kind }) => kind === 'fn');
const rows = map.rows.filter((row) => 'call' in row && 'one outcome' in row);
const nameOf = ({ within, name, path }) => `${within ?? crateOf(path)}::${name}`;

for (const { name, path } of roots.filter(({ kind }) => kind === 'mod')) {
  holds(name === 'inner', `${path}: calls may hide in the open module ${name}`);
}

// A theorem of that name, for this call alone, whose file takes the contract of this very call.
function isOneOutcome(theorem, { path, within, name }) {
  const contract = `Rattle.${crateOf(path)}.proofs.${within ? `${within}.` : ''}${name}.Reads`;
  const takesIt = (file) => linesOf(file).some((line) => line.includes(`${contract} `));
  return /^one_|_one$/.test(theorem) && PROMISED.some((each) => each.name === theorem && takesIt(each.path))
    && rows.filter((row) => namesIn(row['one outcome']).includes(theorem)).length === 1;
}

// An edit of code that the call is made of.
function editsCode(edit, { path }) {
  return isEdit(edit) && CRATES.get(crateOf(path)).includes(edit.split('/')[0])
    && linesOf(editPath(edit)).some((line) => line.startsWith('file: src/'));
}

for (const call of calls) {
  const name = nameOf(call);
  holds(call.contract.includes('ensures {'), `${call.path}: the public call ${name} has no contract`);
  holds(!call.contract.includes('requires {'), `${call.path}: the public call ${name} has a condition`);
  const [row, ...others] = rows.filter((each) => namesIn(each.call).includes(name));
  holds(row !== undefined && others.length === 0, `${MAP}: the public call \`${name}\` has no row, or several`);
  if (row === undefined) continue;
  const theorems = namesIn(row['one outcome']);
  const edits = namesIn(row['must-fail edits']);
  const proved = theorems.length === 1 && isOneOutcome(theorems[0], call);
  holds(proved, `${row.place}: ${name} has no theorem that it has one outcome`);
  for (const edit of edits) holds(editsCode(edit, call), `${row.place}: \`${edit}\` changes no code of ${name}`);
  holds(new Set(edits).size >= LEAST_EDITS, `${row.place}: ${name} has fewer than ${LEAST_EDITS} must-fail edits`);
}
for (const { place, call } of rows) {
  for (const name of namesIn(call)) {
    holds(calls.some((each) => nameOf(each) === name), `${place}: \`${name}\` is no public call`);
  }
}

// An export takes what the call of its name takes and promises the same, word for word; and each such call has one.
const plain = (contract) => (
  contract.replace('pub extern "C" fn', 'pub fn').replaceAll(/\(\s+/g, '(').replaceAll(/,?\s+\)/g, ')').replaceAll(/\s+/g, ' '));
for (const crate of EXPORTING) {
  const library = crate.replace(/_c$/, '');
  const of = (name) => CODE.filter(({ path, kind, open }) => open && kind === 'fn' && path === `crates/${name}/src/lib.rt`);
  const [offered, exported] = [of(library), of(crate)];
  holds(offered.length > 0, `crates.txt: ${crate} exports no library`);
  for (const { name, contract } of offered) {
    const same = exported.filter((each) => each.name === name);
    const isSame = same.length === 1 && plain(same[0].contract) === plain(contract);
    holds(isSame, `crates/${crate}/src/lib.rt: ${name} does not take and promise what ${library}::${name} does`);
  }
  for (const { name, path } of exported) {
    holds(offered.some((each) => each.name === name), `${path}: ${library} has no call ${name}`);
  }
}

console.log(`${passed} passed, ${failed} failed`);
if (failed > 0) process.exitCode = 1;
