// Runs the works of a folder, as the C program does: node bench.mjs check|time FOLDER.
import { outputMeasures, recordMeasures } from './conversions.mjs';
import { editMeasures } from './edits.mjs';
import { works } from './harness.mjs';
import { pictureMeasures, seriesMeasures } from './smoothing.mjs';

const MEASURES = {
  series: seriesMeasures, picture: pictureMeasures, edits: editMeasures, outputs: outputMeasures,
  record: recordMeasures,
};

for (const work of works()) MEASURES[work.kind](work);
