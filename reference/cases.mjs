// The cases of every call, made the same way each time from a fixed seed: the page's examples, edges, every
// refusal, every pair of refusals, and chosen inputs. A case is a note and the arguments by name.
import { casesOfSmoothing } from './cases-smoothing.mjs';
import { casesOfPictures } from './cases-pictures.mjs';
import { casesOfEdits } from './cases-edits.mjs';
import { casesOfPoints } from './cases-points.mjs';
import { casesOfOutputs } from './cases-outputs.mjs';
import { casesOfWhole } from './cases-whole.mjs';
import { casesOfCarries } from './cases-carry.mjs';
import { casesOfExact } from './cases-exact.mjs';
import { casesOfRecords } from './cases-records.mjs';
import { casesOfPlanner } from './cases-planner.mjs';
import { casesOfPlans } from './cases-plans.mjs';
import { callWords } from './stream.mjs';

// The numbers each call can give; `check` asserts that the stored cases give them all.
// The planner's 15 cannot be reached: sigma is at most 256, so the radius answered is at most 443.
// The summary of a series is lent results alone, whose length is N itself, so it cannot give 8.
// A plan by itself answers no number, nor does a stretch of a record; the planner of every sigma answers all of theirs.
export const NUMBERS_GIVEN = {
  1: [0, 1, 2, 3, 4, 5, 6, 7, 8, 11],
  2: [0, 1, 2, 3, 4, 5, 6, 7, 8, 11],
  3: [0, 1, 2, 3, 4, 5, 6, 7, 8, 9, 10, 11, 12],
  4: [0, 1, 2, 3, 4, 5, 6, 7, 8, 9, 11],
  5: [0, 1, 3, 13],
  6: [0, 5, 7, 8, 11],
  7: [0, 1, 2, 3, 4, 5, 6, 7, 8, 12, 21],
  8: [0, 1, 2, 3, 4, 5, 6, 7, 8, 12],
  9: [0, 1, 2, 3, 4, 5, 6, 7, 12],
  10: [0, 1, 2, 3, 4, 5, 6, 7, 8, 12, 21],
  11: [0, 1, 2, 3, 4, 5, 6, 7, 8, 12],
  12: [0, 1, 2, 3, 4, 5, 6, 7, 8, 12],
  13: [0, 14],
  14: [0, 7, 8],
  15: [0, 1, 2, 3, 4, 5, 6, 7, 8, 12],
  16: [0, 1, 2, 3, 4, 5, 6, 7, 8, 12],
  25: [0, 7, 8, 12],
  26: [0, 7, 8, 11],
  107: [0, 1, 2, 3, 4, 5, 6, 7, 8, 12],
  110: [0, 1, 2, 3, 4, 5, 6, 7, 8, 12],
};

const CASES = {
  ...casesOfSmoothing, ...casesOfPictures, ...casesOfEdits, ...casesOfPoints, ...casesOfOutputs, ...casesOfWhole,
  ...casesOfCarries, ...casesOfExact, ...casesOfRecords, ...casesOfPlanner, ...casesOfPlans,
};

// The cases of a call: a note and the call's words.
export function casesOf(call) {
  return CASES[call]().map(({ note, args }) => ({ note, words: callWords(call, args) }));
}
