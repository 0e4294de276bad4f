// One of several workers: a chain of edits from its own seed, and smoothing of samples that all of them share.
import { parentPort, workerData } from 'node:worker_threads';
import { edits } from './work.mjs';

parentPort.postMessage(edits(workerData));
