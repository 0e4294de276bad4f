// Which stretches of a memory are free. A stretch is where it begins and how many bytes it has.

const UNIT = 16;

export class Blocks {
  // Free stretches in the order of their places. No two touch.
  #free = [];

  // Bytes as they are handed out.
  static size(bytes) {
    return Math.ceil(bytes / UNIT) * UNIT;
  }

  // The place of so many bytes, or null where no free stretch has them. The first that has them is used.
  take(bytes) {
    const size = Blocks.size(bytes);
    const n = this.#free.findIndex((stretch) => stretch.size >= size);
    if (n < 0) return null;
    const { at, size: had } = this.#free[n];
    this.#free.splice(n, 1, ...(had > size ? [{ at: at + size, size: had - size }] : []));
    return at;
  }

  // Makes so many bytes free, one stretch with those that they touch.
  give(at, bytes) {
    const size = Blocks.size(bytes);
    const next = this.#free.findIndex((stretch) => stretch.at > at);
    const n = next < 0 ? this.#free.length : next;
    const [before, after] = [this.#free[n - 1], this.#free[n]];
    const joinsBefore = before !== undefined && before.at + before.size === at;
    const joinsAfter = after !== undefined && at + size === after.at;
    const from = joinsBefore ? before.at : at;
    const to = joinsAfter ? after.at + after.size : at + size;
    this.#free.splice(joinsBefore ? n - 1 : n, joinsBefore + joinsAfter, { at: from, size: to - from });
  }
}
