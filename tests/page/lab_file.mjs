// Traces by the module of docs/lab.html, without a browser.
//
//     node tests/page/lab_file.mjs FILE.html SCRIPT..
//
// Leaves the trace of each script beside it, as SCRIPT.trace, and prints a line for each: 1 where a line of it was refused, else 0.
import { readFileSync, writeFileSync } from 'node:fs';
import { moduleOf, traceOf } from '../../page/src/module.js';

const [file, ...scripts] = process.argv.slice(2);
const module = await moduleOf(/<div id="module" hidden>(.*?)<\/div>/.exec(readFileSync(file, 'utf8'))[1]);
for (const script of scripts) {
  const { trace, isRefused } = await traceOf(module, readFileSync(script));
  writeFileSync(`${script}.trace`, trace);
  console.log(Number(isRefused));
}
