// The cases against what their notes say.
import { applies, samplesWrong } from './applies.mjs';
import { divisorOfAll } from './calls.mjs';
import { casesOf } from './cases.mjs';
import { size } from './limits.mjs';
import { seriesResults } from './smoothing.mjs';
import { CALLS, decoded } from './stream.mjs';
import { holds, same, text } from './testing.mjs';

// The calls that test samples or doubles, and which cases of bad ones they have. An edit tests one.
const MANY = [true, true, true, true];
const BAD_MET = {
  'smooth-series': MANY, 'smooth-picture': MANY, edit: [true, true, false, false], point: MANY, 'doubles-in': MANY,
  'doubles-to-results': MANY,
};

// A case `A before B` is answered A, and B applies to it as well.
function overlapFacts(name, cases) {
  for (const { note, words } of cases) {
    const [, low, high] = note.match(/^(\d+) before (\d+)/) ?? [];
    if (low === undefined) continue;
    const { args, outcome } = decoded(words);
    same(`${name}, ${note}`, outcome.number, low);
    holds(`${name}, ${note}: both apply`, applies(Number(low), args) && applies(Number(high), args));
  }
}

// The number of bad ones is that of those tested at 11, else 0. There are cases of none, one, several and all bad.
function badFacts(name, cases) {
  const met = new Set();
  for (const { note, words } of cases) {
    const { args, outcome } = decoded(words);
    const wanted = outcome.number === 11n ? samplesWrong(args) : 0;
    same(`${name}, ${note}: bad`, outcome.bad, wanted);
    met.add(wanted > 1 ? 'several' : wanted);
    if (wanted > 1 && wanted === (args.doubles ?? args.samples).length) met.add('all');
  }
  same(`${name}: cases of bad ones`, [0, 1, 'several', 'all'].map((each) => met.has(each)), BAD_MET[name]);
}

// Whole numbers out have halves over even and odd quotients of both signs, in every mode of a call that takes one.
function halfFacts(name, takesMode, cases) {
  const met = new Set();
  for (const { words } of cases) {
    const { args, outcome } = decoded(words);
    if (outcome.number !== 0n) continue;
    const divisor = divisorOfAll([args.plan, args.across, args.down].filter((plan) => plan !== undefined));
    for (const result of args.results.filter((each) => size(2n * each) % (2n * divisor) === divisor)) {
      met.add(`mode ${args.mode}, negative ${result < 0n}, odd ${size(result) / divisor % 2n}`);
    }
  }
  same(`${name}: halves`, met.size, takesMode ? 8 : 4);
}

// What the seed chose may by chance be a case that is there already.
function differentFacts(name, cases) {
  const named = cases.filter(({ note }) => note !== 'chosen');
  const different = new Set(named.map(({ words }) => words.join(' ')));
  same(`${name}: different cases`, different.size, named.length);
}

// An edit of a chain is lent what the last one that was done left. Where the first is lent a smoothing, each leaves one.
function chainFacts(cases) {
  let left;
  let isSmoothing;
  for (const { note, words } of cases.filter(({ note: each }) => each.startsWith('chain:'))) {
    const { args, outcome } = decoded(words);
    const smoothing = ({ samples }) => seriesResults(args.plan, samples);
    if (note.endsWith(', edit 1')) {
      left = args;
      isSmoothing = text(args.results) === text(smoothing(args));
    }
    if (args.samples.length > 0) same(`${note}: lent`, [args.samples, args.results], [left.samples, left.results]);
    if (outcome.number !== 0n) continue;
    if (isSmoothing) same(`${note}: left`, outcome.results, smoothing(outcome));
    left = outcome;
  }
}

// Points that differ past the reach alone get the same answer.
function alikeFacts(cases) {
  const answers = new Map();
  for (const { note, words } of cases) {
    const [, within] = note.match(/^(.*), \S+ past it$/) ?? [];
    if (within === undefined) continue;
    const { number, position, bad, value } = decoded(words).outcome;
    const answer = [number, position, bad, value];
    same(`point, ${note}`, answer, answers.get(within) ?? answer);
    answers.set(within, answer);
  }
  holds('points that differ past the reach', answers.size > 0);
}

export function testCases() {
  for (const [call, { name, takes }] of Object.entries(CALLS)) {
    const cases = casesOf(call);
    overlapFacts(name, cases);
    differentFacts(name, cases);
    if (name in BAD_MET) badFacts(name, cases);
    if (name.startsWith('whole')) halfFacts(name, 'mode' in takes, cases);
  }
  chainFacts(casesOf(3));
  alikeFacts(casesOf(4));
}
