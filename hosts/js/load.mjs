// The WebAssembly module, compiled once. It stands beside this file: read from there in node, fetched in a browser.

const place = new URL('./dungdapple.wasm', import.meta.url);

async function bytesOfFile() {
  const { readFile } = await import('node:fs/promises');
  return readFile(place);
}

// The bytes are fetched as a whole, so that a server need not know what type a .wasm has.
async function bytesOfServer() {
  const response = await fetch(place);
  if (!response.ok) throw new Error(`${place}: ${response.status} ${response.statusText}`);
  return response.arrayBuffer();
}

export const module = await WebAssembly.compile(await (place.protocol === 'file:' ? bytesOfFile() : bytesOfServer()));
