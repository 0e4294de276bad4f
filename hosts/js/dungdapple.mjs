// Dungdapple for JavaScript: smoothing of series and pictures in exact whole numbers, by proved code.
// Proved is the code that dungdapple.wasm is compiled from; these files lend it memory and give numbers names.
export {
  EVEN, UPWARD, carryPicture, carrySeries, divisor, doublesIn, doublesPicture, doublesSeries, doublesToResults,
  editSeries, planFor, point, reach, resultsToDoubles, smoothPicture, smoothSeries, summaryPicture, summarySeries,
  wholePicture, wholeSeries,
} from './calls.mjs';
export { explain } from './numbers.mjs';
export { readRecord, recordSize, writeRecord } from './records.mjs';
export { StoredSeries } from './stored.mjs';
