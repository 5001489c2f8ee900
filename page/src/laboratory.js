// The laboratory beside the page: a worker that runs scripts, so that a long one does not hold up the page and can be
// called off. Both the worker's text and the module stand in the page.

const laboratory = { worker: null, fail: null };
const CALLED_OFF = new Error('the run was called off');

function startWorker() {
  const text = new Blob([byId('worker').textContent], { type: 'text/javascript' });
  const worker = new Worker(URL.createObjectURL(text));
  worker.postMessage({ code: byId('module').textContent });
  return worker;
}

// The trace of a script, as a text. A run that goes on is called off by the next.
function traced(script) {
  callOff();
  return new Promise((resolve, reject) => {
    const end = (settle, value) => { laboratory.fail = null; settle(value); };
    laboratory.worker ??= startWorker();
    laboratory.fail = reject;
    laboratory.worker.onmessage = ({ data: { trace, fault } }) =>
      fault ? end(reject, new Error(fault)) : end(resolve, new TextDecoder().decode(trace));
    laboratory.worker.onerror = ({ message }) => {
      laboratory.worker = null;
      end(reject, new Error(`this browser does not let the page run its laboratory (${message})`));
    };
    laboratory.worker.postMessage({ script: new TextEncoder().encode(script) });
  });
}

const isRunning = () => laboratory.fail !== null;
function callOff() {
  if (!isRunning()) return;
  laboratory.worker.terminate();
  const { fail } = laboratory;
  Object.assign(laboratory, { worker: null, fail: null });
  fail(CALLED_OFF);
}
