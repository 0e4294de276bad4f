// Cases of call 100: a plan by itself.
import { LARGEST_U64, WIDEST, anyPlan, chance, plan, times } from './inputs.mjs';

function planCase(note, chosen) {
  return { note, args: { plan: chosen } };
}

const PLAN_EXAMPLES = [
  planCase('example', plan(1, 2, 1, 8)),
  planCase('example, two passes', plan(1, 1, 0, 2)),
  planCase('edge as inner', plan(1, 2, 2, 1)),
  planCase('heaviest weights, one pass', plan(1023, 255, 254, 1)),
  planCase('heaviest weights, two passes', plan(1023, 255, 254, 2)),
  planCase('heaviest weights, three passes', plan(1023, 255, 254, 3)),
  planCase('heaviest weights, eight passes', plan(1023, 255, 254, 8)),
  planCase('widest reach', WIDEST),
  planCase('widest reach without edge', plan(1023, 1, 0, 4)),
  planCase('largest radius without edge, eight passes', plan(1023, 1, 0, 8)),
];

// Every number about its limits. The identity has reach 0, so that only the divisor tells it from a refused plan.
const PASSES = times(10, (passes) => [
  planCase(`passes ${passes}`, plan(2, 3, 1, passes)),
  planCase(`passes ${passes}, edge 0`, plan(4, 1, 0, passes)),
  planCase(`passes ${passes}, identity`, plan(0, 1, 0, passes)),
]).flat();

const RADII = [0, 1, 1022, 1023, 1024].flatMap((radius) => [
  planCase(`radius ${radius}, edge 0`, plan(radius, 3, 0, 2)),
  planCase(`radius ${radius}, edge one below inner`, plan(radius, 3, 2, 2)),
]);

const WEIGHTS = [
  [0, 0], [0, 1], [1, 0], [1, 1], [1, 2], [2, 0], [2, 1], [2, 2], [2, 3], [254, 0], [254, 253], [254, 254],
  [255, 0], [255, 254], [255, 255], [255, 256], [256, 0], [256, 255], [256, 256], [256, 257],
].map(([inner, edge]) => planCase(`inner ${inner}, edge ${edge}`, plan(3, inner, edge, 2)));

function powerCases(note, plans) {
  return plans.map((chosen) => {
    const sum = (2 * chosen.radius + 1) * chosen.inner + 2 * chosen.edge;
    return planCase(`${sum}^${chosen.passes}, ${note}`, chosen);
  });
}

// The largest sum of taps that so many passes allow, and one more. One pass and two allow every sum.
const POWERS = [
  ...powerCases('allowed', [
    plan(407, 255, 119, 3), plan(18, 255, 153, 4), plan(2, 254, 141, 5), plan(0, 254, 101, 6), plan(0, 190, 0, 7),
    plan(0, 98, 0, 8),
  ]),
  ...powerCases('too large', [
    plan(409, 254, 19, 3), plan(18, 254, 172, 4), plan(2, 255, 139, 5), plan(0, 255, 101, 6), plan(0, 191, 0, 7),
    plan(0, 99, 0, 8),
  ]),
  ...powerCases('below 2^64, negative if read with a sign', [plan(13, 255, 123, 5), plan(0, 255, 0, 8)]),
  ...powerCases('2^64', [plan(128, 254, 129, 4), plan(0, 254, 1, 8)]),
];

// Powers above 2^64 that would be allowed modulo 2^64. Where only the last factor wraps, a test after every factor
// would not see it either.
const WRAPPING = [
  ...powerCases('wraps in the last factor', [
    plan(216, 254, 118, 4), plan(152, 254, 233, 4), plan(16, 254, 251, 5), plan(13, 254, 137, 5),
  ]),
  ...powerCases('wraps', [
    plan(687, 254, 133, 4), plan(854, 254, 177, 5), plan(415, 255, 211, 6), plan(468, 254, 187, 7),
    plan(403, 255, 132, 8),
  ]),
];

// Numbers that could pass if they were cut to a narrower width or read with a sign.
const WIDE = [2n ** 8n + 1n, 2n ** 16n + 1n, 2n ** 32n, 2n ** 32n + 1n, 2n ** 63n, LARGEST_U64].flatMap((wide) => {
  const good = plan(1, 2, 0, 1);
  return Object.keys(good).map((field) => planCase(`${field} ${wide}`, { ...good, [field]: wide }));
});

// More than one reason to refuse, and products of refused numbers that wrap.
const TOGETHER = [
  planCase('passes 0, radius 1024', plan(1024, 2, 1, 0)),
  planCase('passes 9, radius 1024', plan(1024, 2, 1, 9)),
  planCase('passes 0, inner 0', plan(1, 0, 0, 0)),
  planCase('passes 9, inner 256', plan(1, 256, 1, 9)),
  planCase('passes 0, edge as inner', plan(1, 2, 2, 0)),
  planCase('passes 9, edge as inner', plan(1, 2, 2, 9)),
  planCase('radius 1024, inner 0', plan(1024, 0, 0, 1)),
  planCase('radius 1024, inner 256', plan(1024, 256, 1, 1)),
  planCase('radius 1024, edge as inner', plan(1024, 2, 2, 1)),
  planCase('passes 9, divisor too large', plan(1023, 255, 254, 9)),
  planCase('radius 1024, divisor too large', plan(1024, 255, 254, 8)),
  planCase('inner 256, divisor too large', plan(1023, 256, 255, 8)),
  planCase('edge as inner, divisor too large', plan(1023, 255, 255, 8)),
  planCase('all 0', plan(0, 0, 0, 0)),
  planCase('all one above', plan(1024, 256, 256, 9)),
  planCase('all largest', plan(LARGEST_U64, LARGEST_U64, LARGEST_U64, LARGEST_U64)),
  planCase('passes times radius 2^64', plan(2n ** 32n, 1, 0, 2n ** 32n)),
  planCase('passes times radius 2^64 + 4', plan((2n ** 64n + 4n) / 5n, 1, 0, 5)),
  planCase('inner and edge above 2^63', plan(0, 2n ** 63n + 2n, 2n ** 63n + 1n, 1)),
];

// By turns one whose divisor is allowed and one of any allowed numbers.
function chosenPlan(below, n) {
  if (n % 2 === 0) return anyPlan(below, 1 + (n / 2) % 8);
  const inner = 1 + below(255);
  return plan(below(1024), inner, below(inner), 1 + below(8));
}

function planCases() {
  const below = chance(500);
  const chosen = times(40, (n) => planCase('chosen', chosenPlan(below, n)));
  return [...PLAN_EXAMPLES, ...PASSES, ...RADII, ...WEIGHTS, ...POWERS, ...WRAPPING, ...WIDE, ...TOGETHER, ...chosen];
}

export const casesOfPlans = { 100: planCases };
