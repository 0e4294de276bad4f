// The run: all works timed, all results compared, the page and its charts written.
import { mkdirSync, writeFileSync } from 'node:fs';
import { compared } from './compare.mjs';
import { machine } from './machine.mjs';
import { emulatedHere, installed, laid, ran } from './programs.mjs';
import { Page } from './results.mjs';
import { Figures } from './statistics.mjs';
import { SERIES, TIMED } from './works.mjs';

const place = (name) => new URL(name, import.meta.url);

// PostgreSQL, by far the slowest, is not asked for how cost grows.
const wasAsked = ({ id, work: { name } }) => id !== 'postgresql' || SERIES.some((each) => each.name === name);

export function measure() {
  const here = installed();
  const emulated = emulatedHere(here);
  emulated.forEach(({ name, why }) => console.log(`bench: ${name} runs emulated (${why}): no times of it`));
  const folder = laid('time', TIMED);
  const started = Date.now();
  const tell = (name) => console.log(`bench: ${Math.round((Date.now() - started) / 1e3)} s: ${name}`);
  const lines = ran((name) => (emulated.some((each) => each.name === name) ? 'check' : 'time'), folder, here, SERIES, tell);
  const outcomes = compared(folder, TIMED, here.parts).filter(wasAsked);
  const wrong = outcomes.filter(({ missing, same }) => missing || same === false);
  wrong.forEach(({ work, measure: name, id }) => console.log(`bench: ${work.name}, ${name}, ${id}: other results`));
  const page = new Page(new Figures(lines), outcomes, here.cc);
  mkdirSync(place('charts'), { recursive: true });
  for (const [name, chart] of Object.entries(page.charts)) writeFileSync(place(`charts/${name}.svg`), chart);
  writeFileSync(place('RESULTS.md'), page.text({ machine: machine(here), left: here.left, emulated }));
  console.log(`bench: ${outcomes.length} comparisons, ${wrong.length} failed; bench/RESULTS.md is written`);
  return wrong.length === 0;
}
