// Runs every example of the requirements on the reference, and checks the reference against itself by facts that
// do not follow from how it computes. Shows what differs; the last line tells how many passed and failed.
import { testExamples } from './test-examples.mjs';
import { testSmoothing } from './test-smoothing.mjs';
import { testValues } from './test-values.mjs';
import { testPlanner } from './test-planner.mjs';
import { testCarry } from './test-carry.mjs';
import { testExact } from './test-exact.mjs';
import { testArguments } from './test-arguments.mjs';
import { testFormats } from './test-formats.mjs';
import { testCases } from './test-cases.mjs';
import { testJobs } from './test-jobs.mjs';
import { tell } from './testing.mjs';

testExamples();
testSmoothing();
testValues();
testPlanner();
testCarry();
testExact();
testArguments();
testFormats();
testCases();
testJobs();
tell();
