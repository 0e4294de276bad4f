// Calls that do not come back: a trap, which no input causes and which is forced here by a pointer out of the
// memory; a caller's stack that is used up; a script that is stopped. The module goes on after each.
import { runInNewContext } from 'node:vm';
import * as dungdapple from '../dungdapple.mjs';
import { ready } from '../memory.mjs';
import { holds, same, tell, throws } from './counting.mjs';

const { StoredSeries, editSeries, point, smoothSeries } = dungdapple;
const PLAN = { radius: 1, inner: 2, edge: 1, passes: 1 };
const WIDE = { radius: 1023, inner: 2, edge: 1, passes: 4 };
const SAMPLES = [8, 0, 0];
const RESULTS = Float64Array.of(32, 24, 8);

function works(name) {
  const results = new Float64Array(3);
  same(`${name}: smooths`, [smoothSeries(PLAN, 9, SAMPLES, results).number, results], [0, RESULTS]);
  // many calls of the deepest stack, so that a stack that gets less would be used up
  for (let n = 0; n < 40; n += 1) {
    same(`${name}: point`, point(WIDE, 31, 0, [31, 31]).value, 31);
  }
}

// A series with its samples, which a break must not touch unless it takes the series away.
function stored(count) {
  return Array.from({ length: count }, (_, n) => new StoredSeries(PLAN, 9, SAMPLES.map((sample) => sample - n)));
}

function stillStored(name, all) {
  all.forEach((series, n) => {
    same(`${name}: samples`, series.samples, Int32Array.from(SAMPLES, (sample) => sample - n));
    same(`${name}: results`, series.results, RESULTS.map((result) => result - 8 * n));
    same(`${name}: edit`, series.edit(0, 1).number, 0);
    same(`${name}: edit back`, series.edit(0, 8 - n).number, 0);
  });
}

const PAST_THE_END = -8;

function trapFacts() {
  const all = stored(3);
  for (let times = 0; times < 3; times += 1) {
    const error = throws('a trap', Error, 'started anew', () => ready().call('dungdapple_divisor', PAST_THE_END, 4n));
    holds('a trap: its cause', error.cause instanceof WebAssembly.RuntimeError);
    works('after a trap');
    for (const series of all) {
      throws('a series lost by a trap, edited', Error, 'started anew', () => series.edit(0, 1));
      throws('a series lost by a trap, read', Error, 'started anew', () => series.results);
      throws('a row of it', Error, 'started anew', () => series.resultAt(0));
    }
    const fresh = stored(3);
    stillStored('stored after a trap', fresh);
    all[0].free();
    stillStored('stored after a lost one is freed', fresh);
    throws('a lost one that is freed', Error, 'freed', () => all[0].samples);
    all.splice(0, all.length, ...fresh);
  }
}

// Calls at every depth that the stack has, so that some of them end within the module.
function exhausted(call) {
  let ends = 0;
  const deeper = () => {
    try {
      deeper();
    } catch (error) {
      ends += 1;
    }
    if (ends < 30) {
      try {
        call();
      } catch (error) {
        ends += 1;
      }
    }
  };
  deeper();
  return ends;
}

function stackFacts() {
  const all = stored(3);
  const [samples, results] = [new Int32Array(500).fill(3), new BigInt64Array(500)];
  const calls = {
    smoothing: () => smoothSeries(PLAN, 9, samples, results),
    edit: () => editSeries(PLAN, 9, 250, 3, samples, results),
    point: () => point(WIDE, 31, 250, samples),
    series: () => new StoredSeries(PLAN, 9, samples).free(),
  };
  for (const [name, call] of Object.entries(calls)) {
    for (let times = 0; times < 5; times += 1) holds(`${name}: ends`, exhausted(call) > 0);
    works(`after a stack used up by ${name}`);
    stillStored(`after a stack used up by ${name}`, all);
  }
}

// An edit that is cut off takes its own series away, if it takes any.
function stackOfEditFacts() {
  const all = stored(3);
  const edited = new StoredSeries(PLAN, 9, new Int32Array(500).fill(3));
  exhausted(() => edited.edit(250, 3));
  works('after an edit that was cut off');
  stillStored('after an edit that was cut off', all);
  try {
    same('a series whose edit was cut off', edited.samples, new Int32Array(500).fill(3));
  } catch (error) {
    holds('a series whose edit was cut off', error.message.startsWith('lost'), error);
  }
}

const TIMED_OUT = 'ERR_SCRIPT_EXECUTION_TIMEOUT';

function stopped(script, room) {
  try {
    return runInNewContext(script, room, { timeout: 8 });
  } catch (error) {
    return error.code;
  }
}

// A script stopped by its time, in the middle of whatever it calls.
function stopFacts() {
  const all = stored(3);
  const [samples, results] = [new Int32Array(65_536), new BigInt64Array(65_536)];
  const room = { calls: dungdapple, samples, results, plan: PLAN, wide: WIDE };
  const scripts = [
    'for (;;) calls.smoothSeries(plan, 9, samples, results)',
    'for (;;) calls.point(wide, 31, 9, samples)',
    'for (;;) new calls.StoredSeries(plan, 9, samples).free()',
  ];
  for (let times = 0; times < 10; times += 1) {
    for (const script of scripts) same('a script that is stopped', stopped(script, room), TIMED_OUT);
  }
  works('after scripts that were stopped');
  stillStored('after scripts that were stopped', all);
}

// A script stopped in the middle of its edits. If it was within one, that series says that it is lost; if not, it is
// what its samples give.
function stopOfEditFacts() {
  let lost = 0;
  for (let times = 0; times < 30; times += 1) {
    const series = new StoredSeries(WIDE, 31, new Int32Array(10_000));
    const script = 'for (let n = 0; ; n += 1) series.edit(5000, n % 30)';
    same('an edit that is stopped', stopped(script, { series }), TIMED_OUT);
    try {
      const fresh = new Float64Array(series.length);
      smoothSeries(WIDE, 31, series.samples, fresh);
      same('a series whose edits were stopped', series.results, fresh);
    } catch (error) {
      lost += 1;
      holds('a series whose edit was stopped', error.message.includes('cut off'), error);
    }
    series.free();
  }
  holds('some edits are stopped within', lost > 0);
  works('after edits that were stopped');
}

works('at first');
trapFacts();
stackFacts();
stackOfEditFacts();
stopFacts();
stopOfEditFacts();
tell();
