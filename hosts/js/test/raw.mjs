// The module's exports as they are: an instance of its own, slices of exactly the lengths given, and every number
// that a call answers filled with garbage first. Around each slice are guard bytes that no call may touch.
import { module } from '../load.mjs';

const { memory, __heap_base: base, ...exports } = new WebAssembly.Instance(module).exports;
const PAGE = 65_536;
const GUARD = 16;
const GARBAGE = 0xa5;

class Lent {
  constructor(at, cells) {
    Object.assign(this, { at, cells, before: cells.slice() });
  }

  get pair() {
    return [this.at, BigInt(this.cells.length)];
  }

  // The cells as they are now.
  get now() {
    const type = this.cells.constructor;
    return new type(memory.buffer, this.at, this.cells.length).slice();
  }
}

// One call's room: what it is lent, one after the other.
export class Room {
  #at = base.value;
  #guards = [];

  #take(bytes) {
    const at = Math.ceil((this.#at + GUARD) / 16) * 16;
    const end = at + bytes + GUARD;
    const missing = end - memory.buffer.byteLength;
    if (missing > 0) memory.grow(Math.ceil(missing / PAGE));
    new Uint8Array(memory.buffer).fill(GARBAGE, this.#at, end);
    this.#guards.push([this.#at, at], [at + bytes, end]);
    this.#at = end;
    return at;
  }

  slice(cells) {
    const at = this.#take(cells.byteLength);
    new cells.constructor(memory.buffer, at, cells.length).set(cells);
    return new Lent(at, cells);
  }

  // A plan by its fields, or as a list of doubles of any length.
  plan(plan) {
    const numbers = Array.isArray(plan) ? plan : [plan.radius, plan.inner, plan.edge, plan.passes];
    return this.slice(Float64Array.from(numbers, Number));
  }

  // A place for a number of 4 bytes, or of 8.
  whole() {
    const at = this.#take(4);
    return { at, get: () => BigInt(new Uint32Array(memory.buffer, at, 1)[0]) };
  }

  double() {
    const at = this.#take(8);
    return { at, get: () => new Float64Array(memory.buffer, at, 1)[0] };
  }

  // Whether no byte beside what was lent was touched.
  get guarded() {
    const bytes = new Uint8Array(memory.buffer);
    return this.#guards.every(([from, to]) => bytes.subarray(from, to).every((byte) => byte === GARBAGE));
  }
}

export function call(name, ...args) {
  return exports[`dungdapple_${name}`](...args);
}

export function ask(name, ...args) {
  return BigInt(call(name, ...args) >>> 0);
}
