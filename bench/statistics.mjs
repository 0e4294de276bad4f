// A figure: the median of its rounds with its quartiles, in nanoseconds a cell or a call; and how numbers are written.

function quantile(sorted, part) {
  const at = part * (sorted.length - 1);
  const [below, above] = [sorted[Math.floor(at)], sorted[Math.ceil(at)]];
  return below + (above - below) * (at - Math.floor(at));
}

const keyOf = (work, measure, id) => `${work} ${measure} ${id}`;

// Figures by work, measure and program, from lines `figure WORK MEASURE PROGRAM CELLS TIME..`.
export class Figures {
  #all = new Map();

  constructor(lines) {
    for (const line of lines) {
      const [, work, measure, id, cells, ...times] = line.split(' ');
      const sorted = times.map((time) => Number(time) / Number(cells)).sort((one, other) => one - other);
      const [low, median, high] = [0.25, 0.5, 0.75].map((part) => quantile(sorted, part));
      this.#all.set(keyOf(work, measure, id), { low, median, high, rounds: sorted.length });
    }
  }

  get size() {
    return this.#all.size;
  }

  get rounds() {
    const counts = [...this.#all.values()].map(({ rounds }) => rounds);
    return [Math.min(...counts), Math.max(...counts)];
  }

  // Undefined where the program was not timed.
  of(work, measure, id) {
    return this.#all.get(keyOf(work.name, measure, id));
  }
}

// Three digits that count, and no more than there are.
export function written(number) {
  if (number === 0) return '0';
  if (Math.abs(number) < 1e-3) return number.toExponential(1);
  const places = Math.max(0, 2 - Math.floor(Math.log10(Math.abs(number))));
  const rounded = Number(number.toPrecision(3));
  return rounded.toLocaleString('en-US', { minimumFractionDigits: places, maximumFractionDigits: places });
}
