// The planner against facts that the requirements tell of it, and its cases against their notes.
import { planner } from './calls.mjs';
import { BELOW_FULL, FULL, HALF } from './cases-planner.mjs';
import { casesOf } from './cases.mjs';
import { MOST_PASSES, MOST_SIGMA } from './limits.mjs';
import { divisorOf, kernelOf, reachOf, surveyEdge } from './smoothing.mjs';
import { decoded } from './stream.mjs';
import { holds, plan, same } from './testing.mjs';

const PLANNER = 5;
const upTo = (most) => Array.from({ length: Number(most) }, (_, n) => BigInt(n + 1));
const EVERY_PASSES = upTo(MOST_PASSES);
const EVERY_SIGMA = upTo(MOST_SIGMA);

// The largest r with r(r+1)Q <= 3s², by counting up.
function originalRadius(sigma, passes) {
  let r = 0n;
  while ((r + 1n) * (r + 2n) * 10_000n * passes <= 3n * sigma * sigma) r += 1n;
  return r;
}

// Of all edge weights from 0 to the inner weight the first that none is nearer to the survey's value, as its equation
// 34 has it: there both numerator and denominator are below 0.
function nearestEdge(sigma, passes, inner, r) {
  const q = 10_000n * passes;
  const over = inner * (2n * r + 1n) * (r * (r + 1n) * q - 3n * sigma * sigma);
  const under = 6n * (sigma * sigma - (r + 1n) * (r + 1n) * q);
  const far = (edge) => (edge * under > over ? edge * under - over : over - edge * under);
  let nearest = 0n;
  for (let edge = 1n; edge <= inner; edge += 1n) {
    if (far(edge) < far(nearest)) nearest = edge;
  }
  return nearest;
}

function nearestFact({ sigma, passes, inner }) {
  const r = originalRadius(sigma, passes);
  const nearest = nearestEdge(sigma, passes, inner, r);
  const wanted = nearest === inner ? [0, r + 1n, 0] : [0, r, nearest];
  const { number, radius, edge } = planner({ sigma, passes, inner });
  same(`planner ${sigma} ${passes} ${inner}`, [number, radius, edge], wanted);
}

// With the survey's value, both weights times its denominator, K times the variance of one pass is s²/10,000.
function varianceFact({ sigma, passes, inner }) {
  const { radius: r, over, under } = surveyEdge(sigma, passes, inner);
  const squares = inner * under * r * (r + 1n) * (2n * r + 1n) + 6n * over * (r + 1n) ** 2n;
  const taps = (2n * r + 1n) * inner * under + 2n * over;
  same(`variance ${sigma} ${passes} ${inner}`, passes * squares * 10_000n, 3n * taps * sigma * sigma);
}

// An edge as heavy as the rest, and one radius more without edge. The second kernel is the longer one by zeros.
function fullEdgeFact(radius, inner, passes) {
  const name = `full edge ${radius} ${inner} ${passes}`;
  const full = plan(radius, inner, inner, passes);
  const wider = plan(radius + 1, inner, 0, passes);
  const zeros = new Array(passes).fill(0);
  same(name, kernelOf(wider), [...zeros, ...kernelOf(full), ...zeros]);
  same(`${name}, numbers`, [divisorOf(wider), reachOf(wider)], [divisorOf(full), reachOf(full)]);
}

function isHalf({ over, under }) {
  return (2n * over) % under === 0n && over % under !== 0n;
}

function caseFacts({ note, args, outcome }) {
  const name = `${note} ${Object.values(args)}`;
  const { radius, over, under } = surveyEdge(args.sigma, args.passes, args.inner);
  nearestFact(args);
  if (note === HALF) holds(name, isHalf({ over, under }));
  if (note === FULL) same(name, outcome.radius, radius + 1n);
  if (note === BELOW_FULL) same(name, outcome.radius, radius);
}

// Sigmas of the cases with this note, for each inner weight and every number of passes.
function noted(cases, name) {
  const those = cases.filter(({ note }) => note === name).map(({ args }) => args);
  return [...new Set(those.map(({ inner }) => inner))].flatMap((inner) => EVERY_PASSES.map((passes) => ({
    inner,
    passes,
    sigmas: those.filter((each) => each.inner === inner && each.passes === passes).map(({ sigma }) => sigma),
  })));
}

// The cases have every half, and of full edges the first, and the last where they have two.
function everyFacts(cases) {
  for (const { inner, passes, sigmas } of noted(cases, HALF)) {
    const all = EVERY_SIGMA.filter((sigma) => isHalf(surveyEdge(sigma, passes, inner)));
    same(`halves of ${inner} ${passes}`, sigmas, all);
  }
  for (const { inner, passes, sigmas: [first, ...last] } of noted(cases, FULL)) {
    const full = (sigma) => planner({ sigma, passes, inner }).radius > originalRadius(sigma, passes);
    same(`first full edge of ${inner} ${passes}`, first, EVERY_SIGMA.find(full));
    if (last.length > 0) same(`last full edge of ${inner} ${passes}`, last, [EVERY_SIGMA.findLast(full)]);
  }
}

export function testPlanner() {
  for (let n = 0; n < 400; n++) {
    const asked = { sigma: BigInt(1 + n * 64), passes: BigInt(1 + n % 8), inner: BigInt(1 + (n * 37) % 255) };
    nearestFact(asked);
    varianceFact(asked);
  }
  for (const [radius, inner, passes] of [[0, 1, 1], [0, 255, 3], [3, 16, 2], [4, 16, 1], [7, 2, 4]]) {
    fullEdgeFact(radius, inner, passes);
  }
  const cases = casesOf(PLANNER).map(({ note, words }) => ({ note, ...decoded(words) }));
  cases.filter(({ outcome }) => outcome.number === 0n).forEach(caseFacts);
  everyFacts(cases);
  same('largest radius', planner({ sigma: 25_600n, passes: 1n, inner: 1n }).radius, 443);
}
