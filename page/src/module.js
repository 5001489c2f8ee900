// The laboratory as a module of WebAssembly, made of the crate lab_page: a script goes in, its trace comes out.

// What a call answers; 0 says that every line was done.
const REFUSED = 1, NO_ROOM = 2;
// The bytes of a trace, at most. Blocks of the module's heap are powers of two, and 16 bytes of each are its own. What is
// never written of it takes no memory.
const ROOM = 2 ** 26 - 16;

// The module stands in the page in letters, and without what repeats.
export async function moduleOf(base64) {
  const packed = new Blob([Uint8Array.from(atob(base64), sign => sign.charCodeAt(0))]).stream().pipeThrough(new DecompressionStream('deflate-raw'));
  return WebAssembly.compile(await new Response(packed).arrayBuffer());
}

// The trace of a script, both as bytes; whether a line was refused; and how many bytes of memory it took. Each run has an
// instance of its own, so nothing is left of one that was stopped.
export async function traceOf(module, script) {
  const { exports: lab } = await WebAssembly.instantiate(module, {});
  const at = room(lab, script.length), size = room(lab, 8), out = room(lab, ROOM);
  new Uint8Array(lab.memory.buffer).set(script, at);
  const status = lab.lab_page_trace(...[at, script.length, out, ROOM, size].map(BigInt));
  const { buffer } = lab.memory, bytes = Number(new DataView(buffer).getBigUint64(size, true));
  if (status === NO_ROOM) throw new Error(`its trace has ${mega(bytes)} MiB, and at most ${mega(ROOM)} are shown`);
  if (status > REFUSED) throw new Error(WANT_OF_MEMORY);
  const trace = new Uint8Array(buffer.slice(out, out + bytes));
  return { trace, isRefused: status === REFUSED, memory: buffer.byteLength };
}

const mega = bytes => Math.ceil(bytes / 2 ** 20);
const WANT_OF_MEMORY = 'it wants more memory than there is';
function room(lab, bytes) {
  const at = Number(lab.page_take(BigInt(Math.max(1, bytes))));
  if (at === 0) throw new Error(WANT_OF_MEMORY);
  return at;
}

// Why there is no trace, in words.
export function faultOf(error) {
  if (error instanceof WebAssembly.RuntimeError) return `the laboratory has stopped (${error.message})`;
  return error instanceof RangeError ? WANT_OF_MEMORY : error.message;
}
