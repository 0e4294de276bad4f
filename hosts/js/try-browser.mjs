// Tries the package in a browser: `node hosts/js/try-browser.mjs`. It serves this folder on the loopback and has
// chromium, without a window, run test/browser.mjs in a page and in a worker; both must say what node says.
// No part of the gate. Without chromium it is left out.
import { execFile } from 'node:child_process';
import { mkdtempSync, readFileSync, rmSync } from 'node:fs';
import { createServer } from 'node:http';
import { tmpdir } from 'node:os';
import { join } from 'node:path';
import { promisify } from 'node:util';
import { holds, tell } from './test/counting.mjs';
import { said } from './test/browser.mjs';

const NAMES = ['chromium', 'chromium-browser', 'google-chrome'];
const TYPES = { mjs: 'text/javascript', wasm: 'application/wasm', html: 'text/html' };
const run = promisify(execFile);

// What the page and its worker say is sent back. The page is loaded when the picture is there, which the server
// holds back until both have spoken; then chromium ends.
const PAGE = `<!doctype html><meta charset="utf-8"><img src="/wait">
<script type="module">
  const tell = (name, text) => fetch('/say/' + name, { method: 'POST', body: text });
  import('./test/browser.mjs').then(({ said }) => tell('page', said()), (error) => tell('page', String(error)));
  const place = new URL('./test/browser.mjs', location.href);
  const code = "import('" + place + "').then(({ said }) => postMessage(said()), "
    + "(error) => postMessage(String(error)))";
  const worker = new Worker(URL.createObjectURL(new Blob([code], { type: 'text/javascript' })), { type: 'module' });
  worker.onmessage = ({ data }) => tell('worker', data);
  worker.onerror = (error) => tell('worker', String(error.message));
</script>`;
const SPEAKERS = ['page', 'worker'];

async function bodyOf(request) {
  const parts = [];
  for await (const part of request) parts.push(part);
  return Buffer.concat(parts).toString();
}

// Serves the page and the files of this folder, and keeps what is said in `heard`. A server need not know what type
// a .wasm has: `typed` tells whether this one does.
function serving(typed, heard) {
  const waiting = [];
  return async (request, response) => {
    const { pathname } = new URL(request.url, 'http://localhost');
    const speaker = pathname.match(/^\/say\/(\w+)$/)?.[1];
    if (speaker !== undefined) {
      heard[speaker] = await bodyOf(request);
      response.end();
      if (SPEAKERS.every((name) => name in heard)) waiting.forEach((held) => held.writeHead(404).end());
    } else if (pathname === '/wait') waiting.push(response);
    else if (pathname === '/') response.writeHead(200, { 'content-type': TYPES.html }).end(PAGE);
    else if (/^\/(test\/)?[a-z]+\.(mjs|wasm)$/.test(pathname)) {
      const type = TYPES[pathname.split('.').at(-1)];
      response.writeHead(200, { 'content-type': typed || type !== TYPES.wasm ? type : 'application/octet-stream' });
      response.end(readFileSync(new URL(`.${pathname}`, import.meta.url)));
    } else response.writeHead(404).end();
  };
}

async function browserName() {
  for (const name of NAMES) {
    const found = await run(name, ['--version']).then(() => true, () => false);
    if (found) return name;
  }
  return null;
}

async function visit(name, port) {
  const profile = mkdtempSync(join(tmpdir(), 'dungdapple-'));
  const words = [
    '--headless', '--no-sandbox', '--disable-gpu', '--disable-dev-shm-usage', `--user-data-dir=${profile}`,
    '--dump-dom', `http://127.0.0.1:${port}/`,
  ];
  try {
    await run(name, words, { timeout: 120_000, maxBuffer: 2 ** 24 });
  } finally {
    rmSync(profile, { recursive: true, force: true });
  }
}

const name = await browserName();
if (name === null) {
  console.log('left out: no chromium in the path');
} else {
  const wanted = said();
  for (const typed of [true, false]) {
    const heard = {};
    const server = createServer(serving(typed, heard));
    await new Promise((resolve) => { server.listen(0, '127.0.0.1', resolve); });
    await visit(name, server.address().port);
    server.close();
    for (const speaker of SPEAKERS) {
      const note = `${speaker}, a .wasm ${typed ? 'with' : 'without'} its type`;
      holds(note, heard[speaker] === wanted, `said ${heard[speaker]}`);
    }
  }
  tell();
}
