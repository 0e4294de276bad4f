// Smoothing over BigInt64Array: as the best form, in one stretch, with every sum and product kept to 64 bits, so that
// the engine may compute it without allocating.
import { fold } from './fold.mjs';

const ROOM = 65_536 + 2 * 1_024;
const rooms = [new BigInt64Array(ROOM), new BigInt64Array(ROOM)];
const { asIntN } = BigInt;

function pad(room, n, beyond) {
  for (let i = 0; i < beyond; i += 1) {
    room[beyond - 1 - i] = room[beyond + fold(i, n)];
    room[beyond + n + i] = room[beyond + fold(n + i, n)];
  }
}

function pass(radius, inner, edge, src, n, dst, at) {
  const high = 2 * radius + 2;
  let window = 0n;
  for (let i = 1; i < high; i += 1) window = asIntN(64, window + src[i]);
  for (let i = 0; i < n; i += 1) {
    const entering = src[i + high];
    dst[at + i] = asIntN(64, inner * window + edge * (src[i] + entering));
    window = asIntN(64, window + entering - src[i + 1]);
  }
}

export function smoothSeries({ radius, inner, edge, passes }, bound, samples, results) {
  const n = samples.length;
  const beyond = radius + 1;
  const most = BigInt(bound);
  for (let i = 0; i < n; i += 1) if (samples[i] > most || samples[i] < -most) return false;
  const weights = [asIntN(64, BigInt(inner)), asIntN(64, BigInt(edge))];
  let [from, to] = rooms;
  from.set(samples, beyond);
  for (let k = 1; k < passes; k += 1) {
    pad(from, n, beyond);
    pass(radius, ...weights, from, n, to, beyond);
    [from, to] = [to, from];
  }
  pad(from, n, beyond);
  pass(radius, ...weights, from, n, results, 0);
  return true;
}
