// The files of stored cases, as text and back: one file a call in vectors/.
// A case is a comment `# ..` that names it, `> ` with the call's words and `< ` with the expected line; n equal words
// in a row may stand as `v*n`.
import { readFileSync } from 'node:fs';
import { CALLS } from './stream.mjs';

export const FOLDER = new URL('./vectors/', import.meta.url);
const LEAST_RUN = 6;

export function fileName(call) {
  return `${String(call).padStart(2, '0')}-${CALLS[call].name}.txt`;
}

export function fileOf(call) {
  return new URL(fileName(call), FOLDER);
}

// Words as text, and back.

export function wordsText(words) {
  const parts = [];
  for (let at = 0, end = 0; at < words.length; at = end) {
    while (end < words.length && words[end] === words[at]) end++;
    const run = end - at;
    if (run >= LEAST_RUN) parts.push(`${words[at]}*${run}`);
    else parts.push(...words.slice(at, end));
  }
  return parts.join(' ');
}

function textWords(text) {
  return text.split(' ').flatMap((part) => {
    const [word, run = '1'] = part.split('*');
    return new Array(Number(run)).fill(BigInt(word));
  });
}

// Cases as text, and back.

function caseText({ note, words, line }) {
  return `# ${note}\n> ${wordsText(words)}\n< ${line}\n`;
}

export function fileText(cases) {
  return cases.map(caseText).join('\n');
}

export function storedCases(call) {
  const paragraphs = readFileSync(fileOf(call), 'utf8').trim().split('\n\n').filter((each) => each !== '');
  return paragraphs.map((paragraph) => {
    const lines = paragraph.split('\n');
    const after = (mark) => lines.filter((line) => line.startsWith(mark)).map((line) => line.slice(mark.length));
    return { note: after('# ').join(' '), words: textWords(after('> ')[0]), line: after('< ')[0] };
  });
}
