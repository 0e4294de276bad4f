// The arrays that a call takes as slices: of which kinds, how long, and their cells.
import { LONGEST } from './memory.mjs';

// What an array is, whatever its own properties and its prototype say.
const uncurried = (method) => Function.prototype.call.bind(method);
const typed = Object.getPrototypeOf(Int32Array.prototype);
const getter = (name) => uncurried(Object.getOwnPropertyDescriptor(typed, name).get);
const lengthOf = getter('length');
const bufferOf = getter('buffer');
const offsetOf = getter('byteOffset');
const { isArray } = Array;

// Copies the cells of one typed array into another, from an index of that one on.
export const copy = uncurried(typed.set);

// The name of a typed array's type; undefined of all else.
export const tagOf = getter(Symbol.toStringTag);

const TYPES = { Int32Array, Float64Array, BigInt64Array, Uint8Array };

export const SAMPLES = ['Int32Array', 'Float64Array', 'Array'];
export const DOUBLES = ['Float64Array', 'Array'];
export const RESULTS = ['BigInt64Array', 'Float64Array'];
export const WHOLE = ['Int32Array', 'Float64Array'];
export const QUOTIENTS = ['Float64Array'];
export const BYTES = ['Uint8Array'];

function kindOf(x) {
  return tagOf(x) ?? (isArray(x) ? 'Array' : undefined);
}

// Throws unless each slice is of one of the kinds that stand under its name. Every call asks this before all else.
export function expect(kinds, slices) {
  for (const name of Object.keys(kinds)) {
    const allowed = kinds[name];
    if (!allowed.includes(kindOf(slices[name]))) throw new TypeError(`${name}: expected ${allowed.join(' or ')}`);
  }
}

// How many cells of a slice are lent: at most this, which is more than any call takes. A slice that is longer is
// lent as so many cells, of whatever the module's memory holds, and its own are not copied. The answer is the same:
// of such a length it is 14 for a record, else 7 or 8 or a lower number, and none of these depends on what a cell
// holds.
function clipped(length, most) {
  return length >= 1 ? Math.min(Math.trunc(length), most) : 0;
}

// An Array as doubles, each element read once; what is no number is NaN.
function readArray(array, most) {
  const { length } = array;
  const doubles = new Float64Array(typeof length === 'number' ? clipped(length, most) : 0);
  if (doubles.length === most) return doubles;
  for (let n = 0; n < doubles.length; n += 1) {
    const element = array[n];
    doubles[n] = typeof element === 'number' ? element : NaN;
  }
  return doubles;
}

// A slice as it is lent: of a typed array a view of its own, whose length neither the array's properties nor another
// thread can change. Reading an Array may run code of the caller, so an Array is read before the other slices, and
// all before anything is copied.
export function read(slice, most = LONGEST) {
  const tag = tagOf(slice);
  if (tag === undefined) return readArray(slice, most);
  const count = clipped(lengthOf(slice), most);
  return count === 0 ? new TYPES[tag](0) : new TYPES[tag](bufferOf(slice), offsetOf(slice), count);
}
