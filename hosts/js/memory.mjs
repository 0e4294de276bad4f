// The running module and its memory: the stack below, then the rooms in which a call is lent its slices, then blocks
// for what is kept from call to call.
import { Blocks } from './blocks.mjs';
import { module } from './load.mjs';

// One cell more than any call takes, and one byte more than any record has.
export const LONGEST = 65_537;
export const LONGEST_RECORD = 4_124;

const PAGE = 65_536;
const LEAST_GROWTH = 16;

const SIZES = {
  numbers: 8 * 8,
  plan: 8 * 4,
  down: 8 * 4,
  bytes: LONGEST_RECORD,
  samples: 4 * LONGEST,
  results: 8 * LONGEST,
  work: 8 * LONGEST,
  doubles: 8 * LONGEST,
};

function started() {
  return new WebAssembly.Instance(module).exports;
}

// Where each room begins, and where the last one ends. Every instance has them at the same place.
function roomsFrom(base) {
  const rooms = {};
  let at = Blocks.size(base);
  for (const [name, size] of Object.entries(SIZES)) {
    rooms[name] = at;
    at += Blocks.size(size);
  }
  return { rooms, end: at };
}

export const { rooms: ROOM, end: KEPT } = roomsFrom(started().__heap_base.value);

// Where a call writes the n-th of the numbers that it answers beside the one it returns.
export function numberAt(n) {
  return ROOM.numbers + 8 * n;
}

// Sound: its last call came back. Cut off: that call did not come back, because the caller's stack was used up or
// the script was stopped. Lost: it trapped, and nothing in its memory can be relied on.
const [SOUND, CUT_OFF, LOST] = ['sound', 'cut off', 'lost'];

// Growth takes a memory's buffer away, so views are made anew after it.
function viewsOf(exports) {
  const { buffer } = exports.memory;
  return {
    exports,
    u8: new Uint8Array(buffer),
    i32: new Int32Array(buffer),
    u32: new Uint32Array(buffer),
    f64: new Float64Array(buffer),
    i64: new BigInt64Array(buffer),
  };
}

// An instance with a memory of so many bytes at least.
function startedWith(bytes) {
  const exports = started();
  const missing = bytes - exports.memory.buffer.byteLength;
  if (missing > 0) exports.memory.grow(Math.ceil(missing / PAGE));
  return viewsOf(exports);
}

class Machine {
  // The instance and the views of its memory, replaced together.
  views = startedWith(KEPT);
  #state = SOUND;
  #blocks = new Blocks();
  #end = KEPT;

  get lost() {
    return this.#state === LOST;
  }

  // A call that is cut off leaves the module's stack pointer where it was, so each would leave less stack to the
  // next. It can have written to its own slices only, so what is kept moves into a new instance.
  mend() {
    if (this.views.u8.length === 0) this.views = viewsOf(this.views.exports);
    if (this.#state === SOUND) return;
    const { u8: old } = this.views;
    const views = startedWith(old.length);
    views.u8.set(old.subarray(KEPT), KEPT);
    this.views = views;
    this.#state = SOUND;
  }

  // Calls an export. No code of the caller runs within, and no input makes it trap.
  call(name, ...args) {
    const called = this.views.exports[name];
    this.#state = CUT_OFF;
    try {
      const answer = called(...args);
      this.#state = SOUND;
      return answer;
    } catch (cause) {
      if (!(cause instanceof WebAssembly.RuntimeError)) throw cause;
      this.#state = LOST;
      const told = `dungdapple trapped and was started anew; what it stored is lost (${cause.message})`;
      throw new Error(told, { cause });
    }
  }

  // The same where it answers a number: the module's u32 comes as an i32.
  ask(name, ...args) {
    return this.call(name, ...args) >>> 0;
  }

  #grow(bytes) {
    const { exports } = this.views;
    try {
      exports.memory.grow(Math.max(LEAST_GROWTH, Math.ceil(bytes / PAGE)));
    } catch (cause) {
      throw new RangeError('dungdapple has no memory left to store this in', { cause });
    }
    this.views = viewsOf(exports);
  }

  // So many bytes of its memory, which grows where it has not got them.
  take(bytes) {
    for (;;) {
      const { length } = this.views.u8;
      if (length > this.#end) {
        this.#blocks.give(this.#end, length - this.#end);
        this.#end = length;
      }
      const at = this.#blocks.take(bytes);
      if (at !== null) return at;
      this.#grow(bytes);
    }
  }

  give(at, bytes) {
    this.#blocks.give(at, bytes);
  }
}

let machine = new Machine();

// The machine that calls go to, fit for the next one. Ask for it after the last code of the caller has run.
export function ready() {
  if (machine.lost) machine = new Machine();
  machine.mend();
  return machine;
}
