// Doubles in, results out and a record read, as one writes them in JavaScript. Results are doubles, which are exact.

export function doublesIn(bound, doubles, samples) {
  for (let i = 0; i < doubles.length; i += 1) {
    const double = doubles[i];
    if ((double | 0) !== double || double > bound || double < -bound) return false;
    samples[i] = double;
  }
  return true;
}

export function doublesOut(divisor, results, cells) {
  for (let i = 0; i < results.length; i += 1) cells[i] = results[i] / divisor;
}

// A quotient rounded to a double may be rounded up to a whole number, which is then one too many.
function floorOver(number, divisor) {
  const quotient = Math.floor(number / divisor);
  return number - quotient * divisor < 0 ? quotient - 1 : quotient;
}

export function wholeEven(divisor, results, cells) {
  for (let i = 0; i < results.length; i += 1) {
    const below = floorOver(results[i], divisor);
    const rest = results[i] - below * divisor;
    cells[i] = 2 * rest > divisor || (2 * rest === divisor && below % 2 !== 0) ? below + 1 : below;
  }
}

export function wholeUpward(divisor, results, cells) {
  for (let i = 0; i < results.length; i += 1) {
    const below = floorOver(results[i], divisor);
    cells[i] = 2 * (results[i] - below * divisor) >= divisor ? below + 1 : below;
  }
}

export function carryOut(divisor, results, cells) {
  let rest = 0;
  for (let i = 0; i < results.length; i += 1) {
    const whole = floorOver(results[i] + rest, divisor);
    rest += results[i] - whole * divisor;
    cells[i] = whole;
  }
}

export function summaryOut(divisor, results) {
  let [lowest, highest] = [0, 0];
  for (let i = 1; i < results.length; i += 1) {
    if (results[i] < results[lowest]) lowest = i;
    if (results[i] > results[highest]) highest = i;
  }
  return [results[lowest] / divisor, results[highest] / divisor, lowest, highest];
}

const SIZES = [2, 1, 1, 1, 4];

// The samples of a record, or null where it is not well formed. Fields: tag, two bytes of length, value.
export function readSamples(bytes) {
  const view = new DataView(bytes.buffer, bytes.byteOffset, bytes.length);
  let at = 0;
  for (let field = 0; field < SIZES.length; field += 1) {
    if (bytes.length < at + 3 || view.getUint8(at) !== field + 1 || view.getUint16(at + 1) !== SIZES[field]) return null;
    at += 3 + SIZES[field];
  }
  if (bytes.length < at + 3 || view.getUint8(at) !== 6) return null;
  const size = view.getUint16(at + 1);
  at += 3;
  if (at + size !== bytes.length || size % 4 !== 0 || size === 0 || size > 4096) return null;
  const samples = new Int32Array(size / 4);
  for (let i = 0; i < samples.length; i += 1) samples[i] = view.getInt32(at + 4 * i);
  return samples;
}
