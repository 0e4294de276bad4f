// Results to doubles and back: examples by hand, and facts of every case. The facts read a double by its bits.
import { doublesToResults, resultsToDoubles } from './calls.mjs';
import { casesOf } from './cases.mjs';
import { MOST_RESULT, size } from './limits.mjs';
import { CALLS, bitsOf, decoded } from './stream.mjs';
import { holds, same } from './testing.mjs';

const BITS_OF_RESULTS = [
  [0n, 0x0000000000000000n],
  [1n, 0x3ff0000000000000n],
  [-1n, 0xbff0000000000000n],
  [2n, 0x4000000000000000n],
  [-3n, 0xc008000000000000n],
  [2n ** 32n + 1n, 0x41f0000000100000n],
  [2n ** 52n + 1n, 0x4330000000000001n],
  [2n ** 53n - 2n, 0x433ffffffffffffen],
  [2n ** 53n - 1n, 0x433fffffffffffffn],
  [1n - 2n ** 53n, 0xc33fffffffffffffn],
];

// Bits of doubles that are no results: 2^53, fractions, the least double, infinities, and what is not a number.
const BITS_OF_OTHERS = [
  0x4340000000000000n, 0xc340000000000000n, 0x4340000000000001n, 0x3fe0000000000000n, 0x3ff0000000000001n,
  0x432fffffffffffffn, 0x0000000000000001n, 0x8000000000000001n, 0x7fefffffffffffffn, 0x7ff0000000000000n,
  0xfff0000000000000n, 0x7ff8000000000000n, 0x7ff0000000000001n, 0xffffffffffffffffn,
];

function bitsIn(doubles) {
  return new BigUint64Array(doubles.slice().buffer);
}

function doublesOf(bits) {
  return new Float64Array(BigUint64Array.from(bits).buffer);
}

function toDoubles(results, cells = new Float64Array(results.length).fill(0.5)) {
  return resultsToDoubles({ results: BigInt64Array.from(results), cells });
}

function toResults(doubles, results = new BigInt64Array(doubles.length).fill(7n)) {
  return doublesToResults({ doubles, results });
}

// The whole number that a double of these bits is, of any size; null where it is none.
function wholeByBits(bits) {
  const exponent = (bits >> 52n) & 0x7ffn;
  const fraction = bits & 0xfffffffffffffn;
  if (exponent === 0x7ffn) return null;
  const significand = exponent === 0n ? fraction : fraction + 2n ** 52n;
  const power = (exponent === 0n ? 1n : exponent) - 1075n;
  const below = power < 0n ? 2n ** -power : 1n;
  if (significand % below !== 0n) return null;
  const whole = power < 0n ? significand / below : significand * 2n ** power;
  return bits >> 63n === 1n ? -whole : whole;
}

function isResultByBits(bits) {
  const whole = wholeByBits(bits);
  return whole !== null && size(whole) <= MOST_RESULT;
}

function examples() {
  for (const [result, bits] of BITS_OF_RESULTS) {
    const there = toDoubles([result]);
    same(`${result} as a double`, [there.number, there.position, ...bitsIn(there.cells)], [0, 0, bits]);
    const back = toResults(doublesOf([bits]));
    same(`the double ${result}`, [back.number, back.position, back.bad, back.results], [0, 0, 0, [result]]);
    same(`the double ${result}, by its bits`, wholeByBits(bits), result);
  }
  same('minus zero', toResults(Float64Array.of(-0, 4)).results, [0, 4]);
  for (const bits of BITS_OF_OTHERS) {
    const { number, position, bad, results } = toResults(doublesOf([bitsOf(-1), bits]));
    same(`a double of bits ${bits}`, [number, position, bad, results], [11, 1, 1, [7, 7]]);
    holds(`a double of bits ${bits}, by its bits`, !isResultByBits(bits));
  }
  const several = toResults(Float64Array.of(1, 0.5, 2, NaN, -(2 ** 53)));
  same('three bad doubles', [several.number, several.position, several.bad], [11, 1, 3]);
  for (const large of [2n ** 53n, -(2n ** 53n), 2n ** 53n + 1n, 2n ** 63n - 1n, -(2n ** 63n)]) {
    const { number, position, cells } = toDoubles([0n, 1n, large, large]);
    same(`${large} as a double`, [number, position, cells], [12, 2, [0.5, 0.5, 0.5, 0.5]]);
  }
}

function lengthExamples() {
  for (const [length, cells, number] of [
    [0, 0, 7], [0, 1, 7], [65_537, 65_537, 7], [65_537, 1, 7], [65_536, 65_536, 0], [2, 1, 8], [2, 3, 8], [1, 0, 8],
  ]) {
    const numbers = [
      toDoubles(new BigInt64Array(length), new Float64Array(cells)).number,
      toResults(new Float64Array(length), new BigInt64Array(cells)).number,
    ];
    same(`${length} to ${cells}`, numbers, [number, number]);
  }
}

function decodedCases(call) {
  return casesOf(call).map(({ note, words }) => ({ note: `${CALLS[call].name}, ${note}`, ...decoded(words) }));
}

function isDone({ outcome }) {
  return outcome.number === 0n;
}

// What is done is the same number, and comes back by the other call. What is refused stays, to the bit.
function toDoublesFacts() {
  const cases = decodedCases(25);
  for (const { note, args: { results }, outcome: { position, cells } } of cases.filter(isDone)) {
    const bits = bitsIn(cells);
    same(`${note}: position`, position, 0);
    holds(`${note}: the same numbers`, bits.length === results.length
      && bits.every((each, n) => each !== 2n ** 63n && wholeByBits(each) === results[n]));
    const back = toResults(cells);
    same(`${note}: and back`, [back.number, back.results], [0, results]);
  }
  for (const { note, args, outcome } of cases.filter((each) => !isDone(each))) {
    same(`${note}: cells stay`, bitsIn(outcome.cells), bitsIn(args.cells));
    const first = args.results.findIndex((result) => size(result) > MOST_RESULT);
    same(`${note}: position`, outcome.position, outcome.number === 12n ? first : 0);
  }
}

function toResultsFacts() {
  const cases = decodedCases(26);
  for (const { note, args: { doubles }, outcome: { position, bad, results } } of cases.filter(isDone)) {
    const bits = bitsIn(doubles);
    same(`${note}: position and bad`, [position, bad], [0, 0]);
    holds(`${note}: the same numbers`, results.length === bits.length
      && results.every((result, n) => wholeByBits(bits[n]) === result));
    const back = toDoubles(results);
    const withoutSign = bits.map((each) => (each === 2n ** 63n ? 0n : each));
    same(`${note}: and back`, [back.number, bitsIn(back.cells)], [0, withoutSign]);
  }
  for (const { note, args, outcome } of cases.filter((each) => !isDone(each))) {
    same(`${note}: results stay`, outcome.results, args.results);
    const bad = Array.from(bitsIn(args.doubles), (bits) => !isResultByBits(bits));
    const wanted = outcome.number === 11n ? [bad.indexOf(true), bad.filter((each) => each).length] : [0, 0];
    same(`${note}: position and bad`, [outcome.position, outcome.bad], wanted);
  }
}

// Every good list of the one call is a case of the other.
function backFacts() {
  const doubles = new Set(decodedCases(26).filter(isDone).map(({ args }) => bitsIn(args.doubles).join(' ')));
  const lists = decodedCases(25).filter((each) => isDone(each) && each.args.results.length > 9);
  for (const { note, outcome } of lists) holds(`${note}: its way back`, doubles.has(bitsIn(outcome.cells).join(' ')));
  holds('lists with a way back', lists.length > 5);
}

export function testExact() {
  examples();
  lengthExamples();
  toDoublesFacts();
  toResultsFacts();
  backFacts();
}
