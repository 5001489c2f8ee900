// The same events without asking: what a script would come to if no router asked by itself.
import { nameOf, prefixInView, routeAt } from './trace.js';
import { UNREACHABLE } from './datagrams.js';
import { html } from './markup.js';

const ASKING = /^asking(?: |$)/, EXPECTED_OF_IT = /^(?:expect|refused)(?: |$)/, isBare = line => /^\s*(?:#|$)/.test(line);
export const hasAsking = script => script.split('\n').some(line => ASKING.test(line));

// The script without asking.
export const withoutAsking = script => withoutLines(script, line => ASKING.test(line));

// The script without some lines; each line keeps its number. What it expects, and a line that is to be refused, are of the run
// with them: they are remarks here.
export function withoutLines(script, isWithout) {
  let isRefused = false;
  return script.split('\n').map((line, at) => {
    const isLeftOut = EXPECTED_OF_IT.test(line) || isWithout(line, at + 1) || isRefused && !isBare(line);
    isRefused = line.startsWith('refused') || isRefused && isBare(line);
    return isLeftOut ? `#${line}` : line;
  }).join('\n');
}

// The step of another run of the same lines that stands where a step does: at the end of a line its end, within it as far
// along; where the other has none of it, behind what came before.
export function stepBeside(from, to, step) {
  const lineOf = ({ record: { line } }) => line, line = from.steps[step] ? lineOf(from.steps[step]) : 0;
  const own = ({ steps }) => { const first = steps.findIndex(one => lineOf(one) === line); return [first, steps.findLastIndex(one => lineOf(one) === line)]; };
  const [first, last] = own(from), [begin, end] = own(to);
  if (begin < 0) return Math.max(0, to.steps.findLastIndex(one => lineOf(one) < line));
  return first === last ? end : begin + Math.round((step - first) / (last - first) * (end - begin));
}

// What the routers hold for the prefix in view with asking and without, where it is not the same.
export function askingText(view) {
  const { asking: { trace, other }, step } = view, { record } = other.steps.at(-1) ?? {};
  const at = [trace, other].map(run => (run === view.trace ? step : stepBeside(view.trace, run, step)));
  const prefix = prefixInView({ ...view, trace, step: at[0] }), states = [trace, other].map((run, index) => run.steps[at[index]]);
  if (!prefix || states.some(state => !state)) return html``;
  const rows = trace.ends.flatMap((_, router) => {
    const [asked, waits] = [trace, other].map((run, index) => heldText(run, states[index], router, prefix));
    return asked === waits ? [] : [[nameOf(trace, router), asked, waits]];
  });
  const ends = record.record === 'refused' ? ` Without asking line ${record.line} is refused, and nothing is done behind it.` : '';
  return rows.length === 0 ? html`With asking and without the routers hold the same for ${prefix}.${ends}`
    : html`${rows.map(([name, asked, waits], index) => html`${index > 0 ? '; ' : ''}<b>${name}</b>: ${asked} with asking, ${waits} without`)}.${ends}`;
}

export function heldText(trace, state, router, prefix) {
  const metric = routeAt(state, router, prefix)?.metric, cause = state.routers[router].table.get(prefix)?.cause;
  if (metric < UNREACHABLE) return `metric ${metric}`;
  if (!metric) return 'no route';
  return `no path for ${(state.now - trace.steps[cause].now) / 1000} s`;
}
