// The page's worker: is told the module, then runs one script after another.
import { faultOf, moduleOf, traceOf } from './module.js';

let compiled = null;

async function answer(script) {
  try {
    const { trace, memory } = await traceOf(await compiled, script);
    postMessage({ trace, memory }, [trace.buffer]);
  } catch (error) {
    postMessage({ fault: faultOf(error) });
  }
}

onmessage = ({ data: { code, script } }) => {
  if (code) compiled = moduleOf(code);
  else answer(script);
};
