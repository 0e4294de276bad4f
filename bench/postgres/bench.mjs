// Runs the series of a folder's works in PostgreSQL, as the C program does.
import { readFileSync, writeFileSync } from 'node:fs';
import { join } from 'node:path';
import { withCluster } from './cluster.mjs';

const SETUP = readFileSync(new URL('smooth.sql', import.meta.url), 'utf8');
const [MOST_ROUNDS, FEWEST_ROUNDS, SECONDS] = [31, 5, 3];
const MARK = '-- ';

function samplesOf(folder, { name }) {
  const bytes = readFileSync(join(folder, `${name}.samples`));
  return new Int32Array(new Uint8Array(bytes).buffer);
}

// One work: its samples, its times where they are asked, and its results.
function scriptOf(mode, folder, work) {
  const { name, plan: { radius, inner, edge, passes }, width: n } = work;
  const query = `smoothing(${radius}, ${inner}, ${edge}, ${passes}, ${n})`;
  return [
    'truncate samples;',
    'copy samples from stdin;',
    ...Array.from(samplesOf(folder, work), (sample, at) => `${at}\t${sample}`),
    '\\.',
    `select extend(${n}, ${passes * (radius + 1)});`,
    'analyze extended;',
    `\\echo ${MARK}${name} times`,
    mode === 'time' ? `select timed(${query}, ${MOST_ROUNDS}, ${FEWEST_ROUNDS}, ${SECONDS});` : '',
    `select 'create temp table results as ' || ${query} \\gexec`,
    `\\echo ${MARK}${name} results`,
    'select v from results order by i;',
    'drop table results;',
  ].join('\n');
}

// The lines behind each mark.
function stretches(printed) {
  return printed.split(`${MARK}`).slice(1).map((stretch) => {
    const [head, ...lines] = stretch.trimEnd().split('\n');
    const [name, what] = head.split(' ');
    return { name, what, lines: lines.filter((line) => line !== '') };
  });
}

// Gives the lines of the figures.
export function postgresFigures(mode, folder, works, binaries) {
  const script = [SETUP, ...works.map((work) => scriptOf(mode, folder, work))].join('\n');
  const printed = withCluster(binaries, (run) => run(script));
  const cells = new Map(works.map(({ name, width }) => [name, width]));
  const figures = [];
  for (const { name, what, lines } of stretches(printed)) {
    if (what === 'results') {
      writeFileSync(join(folder, `${name}.smooth.postgresql`), new Uint8Array(BigInt64Array.from(lines, BigInt).buffer));
    } else if (lines.length > 0) {
      figures.push(['figure', name, 'smooth', 'postgresql', cells.get(name), ...lines].join(' '));
    }
  }
  return figures;
}
