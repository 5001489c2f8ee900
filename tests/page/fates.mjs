// What becomes of packets, by the module of docs/lab.html, without a browser.
//
//     node tests/page/fates.mjs MODULE ASKED.json       MODULE is FILE.html, or FILE.wasm
//
// ASKED has a list of [SCRIPT, ADDRESS]. Prints a list of [STATUS, LINES], one for each, as JSON.
import { readFileSync, writeSync } from 'node:fs';
import { moduleOf } from '../../page/src/module.js';

// The bytes of the lines, at most.
const ROOM = 2 ** 24;

const [file, asked] = process.argv.slice(2);
const module = file.endsWith('.wasm') ? await WebAssembly.compile(readFileSync(file))
  : await moduleOf(/<div id="module" hidden>(.*?)<\/div>/.exec(readFileSync(file, 'utf8'))[1]);

async function fatesOf(script, address) {
  const { exports: lab } = await WebAssembly.instantiate(module, {});
  const given = [script, address].map(text => Buffer.from(text));
  const places = given.map(bytes => Number(lab.page_take(BigInt(Math.max(1, bytes.length)))));
  const [size, out] = [8, ROOM].map(bytes => Number(lab.page_take(BigInt(bytes))));
  given.forEach((bytes, index) => new Uint8Array(lab.memory.buffer).set(bytes, places[index]));
  const words = given.flatMap((bytes, index) => [places[index], bytes.length]);
  const status = lab.lab_page_fates(...[...words, out, ROOM, size].map(BigInt));
  const length = status > 1 ? 0 : Number(new DataView(lab.memory.buffer).getBigUint64(size, true));
  return [status, Buffer.from(lab.memory.buffer.slice(out, out + length)).toString()];
}

const answers = [];
for (const [script, address] of JSON.parse(readFileSync(asked, 'utf8'))) answers.push(await fatesOf(script, address));
for (let text = Buffer.from(JSON.stringify(answers)); text.length > 0;) text = text.subarray(writeSync(1, text));
