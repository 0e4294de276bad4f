// The benchmark's own check: every program gives the same results on small works; no times.
import { smoothSeries } from '../hosts/js/dungdapple.mjs';
import { compared } from './compare.mjs';
import { emulation } from './machine.mjs';
import { installed, laid, ran } from './programs.mjs';
import { CHECKED, NEAREST, REFUSED } from './works.mjs';

// How far apart a program may be that rounds in every pass, in smoothed values: doubles, of samples up to 10,000; and
// bytes, which another rule extends, out of reach of the ends. NaN is in no such distance.
const MOST_APART = { 'scipy-uniform': ({ all }) => all <= 1e-8, pillow: ({ all, within }) => all <= 255 && within <= 4 };

let [made, failed] = [0, 0];

function holds(name, fact) {
  made += 1;
  if (fact) return;
  failed += 1;
  console.log(`bench: ${name}`);
}

function agrees({ work, measure, id, missing, same, apart }) {
  const name = `${work.name}, ${measure}, ${id}`;
  if (missing) holds(`${name}: no results`, false);
  else if (same === undefined) holds(`${name}: ${apart.all} apart, ${apart.within} within`, MOST_APART[id](apart));
  else holds(`${name}: other results than c-ours`, same);
}

function numbers({ plan, bound }) {
  return smoothSeries(plan, bound, new Int32Array(9), new Float64Array(9)).number;
}

function recognises() {
  const elf = (machine) => Buffer.from([0x7f, 0x45, 0x4c, 0x46, 2, 1, 1, ...new Array(11).fill(0), machine, 0]);
  const [x86, arm] = ['vendor_id\t: GenuineIntel\n', 'CPU implementer\t: 0x41\n'];
  holds('a program of its own processor is taken for emulated', emulation(elf(62), x86) === null);
  holds('a program of its own processor is taken for emulated', emulation(elf(183), arm) === null);
  holds('a program for x86 on Arm is not seen', emulation(elf(62), arm) !== null);
  holds('a program for Arm on x86 is not seen', emulation(elf(183), x86) !== null);
  holds('VirtualApple is not seen', emulation(elf(62), 'vendor_id\t: VirtualApple\n') !== null);
}

export function check() {
  const here = installed();
  const folder = laid('check', CHECKED);
  try {
    ran(() => 'check', folder, here, CHECKED.filter(({ kind }) => kind === 'series'));
  } catch (error) {
    holds(error.message, false);
  }
  compared(folder, CHECKED, here.parts).forEach(agrees);
  holds('the refused plan is not refused', numbers(REFUSED) === REFUSED.number);
  holds('the plan beside it is refused', numbers(NEAREST) === 0);
  recognises();
  if (here.left.length > 0) console.log(`bench: not installed, left out: ${here.left.join(', ')}`);
  console.log(`bench: ${made} comparisons, ${failed} failed`);
  return failed === 0;
}
