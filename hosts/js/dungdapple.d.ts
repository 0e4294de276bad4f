// Dungdapple for JavaScript: smoothing of series and pictures in exact whole numbers.
//
// Numbers. What is no number is taken as NaN. One that is not allowed is refused by its own number; none throws.
// Slices. Only a slice that is no array of a kind named here throws, a TypeError, before anything is read or changed.
// Answers. `number` is 0 where the call is done, else why it was refused, the lowest that applies; see `explain`.
// `position` is the index of the first cell that offends, at 11 and 12, else 0. What is refused changes no array.

/** Taps `edge inner .. inner edge`, inner 2 * radius + 1 times, applied `passes` times. */
export interface Plan {
  /** 0 to 1,023 */
  readonly radius: number;
  /** 1 to 255 */
  readonly inner: number;
  /** 0 to the inner weight less 1 */
  readonly edge: number;
  /** 1 to 8 */
  readonly passes: number;
}

/** The plans of a picture: rows are smoothed across, columns down. */
export interface Plans {
  readonly across: Plan;
  readonly down: Plan;
}

/** 1 to 4,096 each, at most 65,536 cells. Column x of row y is cell y * width + x. */
export interface Sizes {
  readonly width: number;
  readonly height: number;
}

/** Samples that a call reads: whole numbers of a size at most the bound. */
export type Samples = Int32Array | Float64Array | readonly number[];
/** Samples that an edit writes. */
export type EditedSamples = Int32Array | Float64Array | number[];
/** Results: the smoothed values times the divisor, exact whole numbers of a size at most 2^53 - 1. */
export type Results = BigInt64Array | Float64Array;
/** Cells that take whole numbers. */
export type WholeCells = Int32Array | Float64Array;
export type Doubles = Float64Array | readonly number[];

export interface Answer {
  number: number;
  position: number;
}

/** Of a call that tests samples: at 11, how many of those tested are not acceptable, else 0. */
export interface Checked extends Answer {
  bad: number;
}

export interface Edited extends Checked {
  /** how many results changed */
  count: number;
}

export interface StoredEdited extends Edited {
  /** the first row that may have moved */
  from: number;
  /** the row behind the last that may have moved; equal to `from` where none moved */
  to: number;
}

export interface Point extends Checked {
  value: number;
}

export interface Planned extends Answer {
  radius: number;
  edge: number;
}

export interface Carried extends Answer {
  /** what the last cell leaves; 0 where the results are a smoothing */
  carry: number;
}

export interface Summary extends Answer {
  lowest: number;
  highest: number;
  lowestAt: number;
  highestAt: number;
}

export interface Job extends Answer {
  plan: Plan;
  bound: number;
  samples: Int32Array;
  /** where the samples stand in the record, in bytes */
  start: number;
  size: number;
}

/** Modes of whole output: a half goes to the even neighbour, or upward. */
export const EVEN: 0;
export const UPWARD: 1;

/** Smooths the samples into the results, which are as many. */
export function smoothSeries(plan: Plan, bound: number, samples: Samples, results: Results): Checked;
export function smoothPicture(plans: Plans, bound: number, sizes: Sizes, samples: Samples, results: Results): Checked;

/** Sets one sample, and moves each result within reach of it. */
export function editSeries(
  plan: Plan, bound: number, position: number, value: number, samples: EditedSamples, results: Results,
): Edited;

/** The smoothed value at one position; 0 where refused. */
export function point(plan: Plan, bound: number, position: number, samples: Samples): Point;

/** Radius and edge weight for a standard deviation in hundredths, 1 to 25,600. */
export function planFor(sigmaHundredths: number, passes: number, inner: number): Planned;

/** What a plan's taps sum to, to the power of its passes; 0 of a plan that is accepted under no bound. */
export function divisor(plan: Plan): number;
/** How many cells to either side a sample is felt; 0 of a plan that is accepted under no bound. */
export function reach(plan: Plan): number;

/** Takes doubles as samples: finite, whole and of a size at most the bound. */
export function doublesIn(bound: number, doubles: Doubles, samples: WholeCells): Checked;

/** Each result over the divisor, to the nearest whole number, a half by the mode. */
export function wholeSeries(plan: Plan, bound: number, mode: number, results: Results, cells: WholeCells): Answer;
export function wholePicture(
  plans: Plans, bound: number, sizes: Sizes, mode: number, results: Results, cells: WholeCells,
): Answer;

/** The same so that the cells add up: what a cell leaves is carried on to the next. */
export function carrySeries(plan: Plan, bound: number, results: Results, cells: WholeCells): Carried;
export function carryPicture(plans: Plans, bound: number, sizes: Sizes, results: Results, cells: WholeCells): Carried;

/** Each result over the divisor as a double, by one division. */
export function doublesSeries(plan: Plan, bound: number, results: Results, cells: Float64Array): Answer;
export function doublesPicture(
  plans: Plans, bound: number, sizes: Sizes, results: Results, cells: Float64Array,
): Answer;

/** The lowest and the highest result over the divisor, and the first index of each. */
export function summarySeries(plan: Plan, bound: number, results: Results): Summary;
export function summaryPicture(plans: Plans, bound: number, sizes: Sizes, results: Results): Summary;

/** Each result as the double that is the same number; and back. */
export function resultsToDoubles(results: Results, cells: Float64Array): Answer;
export function doublesToResults(doubles: Doubles, results: Results): Checked;

/** Reads a job record. All is 0 and empty where it is refused, by 14. */
export function readRecord(bytes: Uint8Array): Job;
/** Writes a job record, into `recordSize(samples.length)` bytes. */
export function writeRecord(plan: Plan, bound: number, samples: Samples, bytes: Uint8Array): Checked;
/** Bytes of a record of so many samples, 1 to 1,024; 0 of another count. */
export function recordSize(count: number): number;

/** The name of a number and what it says. */
export function explain(number: number): { name: string; sentence: string };

/** A series whose samples and results stay in the module's memory, so that an edit copies nothing. */
export class StoredSeries {
  constructor(plan: Plan, bound: number, samples: Samples);
  /** How the first smoothing ended. Where it was refused there are no rows, and every edit answers the same. */
  readonly answer: Checked;
  readonly length: number;
  edit(position: number, value: number): StoredEdited;
  /** One row; undefined where there is none. */
  sampleAt(position: number): number | undefined;
  resultAt(position: number): number | undefined;
  /** All rows, as a new array each time. */
  readonly samples: Int32Array;
  readonly results: Float64Array;
  readonly results64: BigInt64Array;
  /** Gives the memory back. What is asked of the series afterwards throws; freeing it again does nothing. */
  free(): void;
}
