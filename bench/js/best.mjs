// Smoothing by the fastest JavaScript over Float64Array that was found: arrays that are kept and padded at both ends,
// so that nothing folds within a pass; four stretches at once, so that no sum waits for the one before; samples tested
// while they are copied; the last pass written where it is asked for.
import { fold } from './fold.mjs';

const MOST_CELLS = 65_536;
const MOST_BEYOND = 1_024;
const ROOM = MOST_CELLS + 2 * MOST_BEYOND;
let [from, to] = [new Float64Array(ROOM), new Float64Array(ROOM)];
const windows = new Float64Array(4_096);

// Whether all are whole numbers within the bound.
function take(samples, bound, first, n, room, at) {
  for (let i = 0; i < n; i += 1) {
    const sample = samples[first + i];
    if ((sample | 0) !== sample || sample > bound || sample < -bound) return false;
    room[at + i] = sample;
  }
  return true;
}

function pad(room, n, beyond) {
  for (let i = 0; i < beyond; i += 1) {
    room[beyond - 1 - i] = room[beyond + fold(i, n)];
    room[beyond + n + i] = room[beyond + fold(n + i, n)];
  }
}

function pass(radius, inner, edge, src, n, dst, at) {
  const high = 2 * radius + 2;
  const second = n >> 2;
  const third = 2 * second;
  const fourth = 3 * second;
  let w = 0;
  let x = 0;
  let y = 0;
  let z = 0;
  for (let i = 1; i < high; i += 1) {
    w += src[i];
    x += src[i + second];
    y += src[i + third];
    z += src[i + fourth];
  }
  // what leaves a window stands beside it in the next step
  let e = src[0];
  let f = src[second];
  let g = src[third];
  let h = src[fourth];
  for (let i = 0; i < second; i += 1) {
    const j = i + second;
    const k = i + third;
    const l = i + fourth;
    const a = src[i + high];
    const b = src[j + high];
    const c = src[k + high];
    const d = src[l + high];
    dst[at + i] = inner * w + edge * (e + a);
    dst[at + j] = inner * x + edge * (f + b);
    dst[at + k] = inner * y + edge * (g + c);
    dst[at + l] = inner * z + edge * (h + d);
    e = src[i + 1];
    f = src[j + 1];
    g = src[k + 1];
    h = src[l + 1];
    w += a - e;
    x += b - f;
    y += c - g;
    z += d - h;
  }
  for (let i = 4 * second; i < n; i += 1) {
    const a = src[i + high];
    dst[at + i] = inner * z + edge * (h + a);
    h = src[i + 1];
    z += a - h;
  }
}

// A stretch of the samples into the same stretch of the results.
function smoothStretch({ radius, inner, edge, passes }, bound, samples, first, n, results) {
  const beyond = radius + 1;
  if (!take(samples, bound, first, n, from, beyond)) return false;
  for (let k = 1; k < passes; k += 1) {
    pad(from, n, beyond);
    pass(radius, inner, edge, from, n, to, beyond);
    [from, to] = [to, from];
  }
  pad(from, n, beyond);
  pass(radius, inner, edge, from, n, results, first);
  return true;
}

export function smoothSeries(plan, bound, samples, results) {
  return smoothStretch(plan, bound, samples, 0, samples.length, results);
}

function passDown(radius, inner, edge, src, width, height, dst) {
  windows.fill(0, 0, width);
  for (let y = -radius; y <= radius; y += 1) {
    const row = width * fold(y, height);
    for (let x = 0; x < width; x += 1) windows[x] += src[row + x];
  }
  for (let y = 0; y < height; y += 1) {
    const low = width * fold(y - radius - 1, height);
    const leaving = width * fold(y - radius, height);
    const high = width * fold(y + radius + 1, height);
    const row = width * y;
    for (let x = 0; x < width; x += 1) {
      const entering = src[high + x];
      dst[row + x] = inner * windows[x] + edge * (src[low + x] + entering);
      windows[x] += entering - src[leaving + x];
    }
  }
}

const pictures = [new Float64Array(MOST_CELLS), new Float64Array(MOST_CELLS)];

export function smoothPicture(plan, bound, { width, height }, samples, results) {
  let [src, dst] = pictures;
  for (let y = 0; y < height; y += 1) {
    if (!smoothStretch(plan, bound, samples, width * y, width, src)) return false;
  }
  for (let k = 1; k < plan.passes; k += 1) {
    passDown(plan.radius, plan.inner, plan.edge, src, width, height, dst);
    [src, dst] = [dst, src];
  }
  passDown(plan.radius, plan.inner, plan.edge, src, width, height, results);
  return true;
}
