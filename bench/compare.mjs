// Compares what the programs gave: byte for byte with Dungdapple from C, or, where a program rounds, by how much.
import { existsSync, readFileSync } from 'node:fs';
import { join } from 'node:path';
import { PROGRAMS } from './names.mjs';

const [OURS] = PROGRAMS;

function divisorOf({ kind, plan: { radius, inner, edge, passes } }) {
  return ((2 * radius + 1) * inner + 2 * edge) ** (passes * (kind === 'picture' ? 2 : 1));
}

const view = (Kind, bytes) => new Kind(new Uint8Array(bytes).buffer);

// How far smoothed values are apart at most, in all cells and in those that no end is within reach of. The program
// saved them over the divisor.
function apart(work, ours, theirs) {
  const [results, values] = [view(BigInt64Array, ours), view(Float64Array, theirs)];
  if (results.length !== values.length) return { all: Infinity, within: Infinity };
  const { plan: { radius, passes }, width, height } = work;
  const [divisor, reach] = [divisorOf(work), passes * (radius + 1)];
  const isFar = (at, length) => length === 1 || (at >= reach && at + reach < length);
  let [all, within] = [0, 0];
  values.forEach((value, n) => {
    const distance = Math.abs(value - Number(results[n]) / divisor);
    all = Math.max(all, distance);
    if (isFar(n % width, width) && isFar(Math.floor(n / width), height)) within = Math.max(within, distance);
  });
  return { all, within };
}

// One entry a program that did a measure of a work: whether it is the same, how far apart it is, or that it is missing.
export function compared(folder, works, parts) {
  const outcomes = [];
  for (const work of works) {
    for (const { id, does, part, limit, rounded } of PROGRAMS.slice(1)) {
      if (!parts.has(part) || limit) continue;
      for (const [kind, measure] of does.map((each) => each.split('.'))) {
        if (kind !== work.kind) continue;
        const file = (program) => join(folder, `${work.name}.${measure}.${program}`);
        const outcome = { work, measure, id };
        if (!existsSync(file(id))) {
          outcomes.push({ ...outcome, missing: true });
          continue;
        }
        const [ours, theirs] = [readFileSync(file(OURS.id)), readFileSync(file(id))];
        if (rounded === undefined) outcomes.push({ ...outcome, same: ours.equals(theirs) });
        else outcomes.push({ ...outcome, apart: apart(work, ours, theirs) });
      }
    }
  }
  return outcomes;
}
