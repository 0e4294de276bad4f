// The program `smooth` by the reference: one job from standard input, its report to standard output.
import { readFileSync } from 'node:fs';
import { report } from './record.mjs';

process.stdout.write(report(Uint8Array.from(readFileSync(0))));
