// The same events in other versions of a network: under another horizon, with or without triggered updates. Each version is the
// script with other lines, and runs beside it.
import { nameOf, prefixInView } from './trace.js';
import { heldText, stepBeside, withoutLines } from './asking.js';
import { spliced } from './building.js';
import { html } from './markup.js';

const HORIZON = /^horizon(?: |$)/, STARTS = /^cold(?: |$)/;
// A version has its name, its script, and for each line of that the line of the script that it stands for.
const version = (name, { script, origins }) => ({ name, script, origins: filled(origins) });
const asLines = script => ({ script, origins: script.replace(/\n*$/, '').split('\n').map((_, at) => at + 1) });
// New lines stand for the line before them.
function filled(origins) {
  let line = 1;
  return origins.map(origin => { line = origin || line; return line; });
}

// ---- Horizons ----
// All routers have one horizon from the start: none, split horizon alone, or poisoned reverse, which is RIPng.
export function horizonsOf(script, { ends }) {
  const bare = withoutLines(script, line => HORIZON.test(line)), cold = bare.split('\n').findIndex(line => STARTS.test(line)) + 1;
  const all = word => spliced(bare, [{ at: cold, lines: ends.map((_, router) => `horizon ${router} ${word}`) }]);
  const isWritten = script.split('\n').some(line => HORIZON.test(line));
  return { name: isWritten ? 'as written' : 'poisoned reverse',
    versions: [version('no split horizon', all('none')), version('split horizon', all('split')), ...isWritten ? [version('poisoned reverse', asLines(bare))] : []] };
}

// ---- Triggered updates ----
// The lines of their own that make a triggered update.
export function triggeredLines(script, { steps }) {
  const lines = script.split('\n'), own = steps.filter(({ record: { line, event, update } }) =>
    event?.kind === 'tick' && update === 'triggered' && /^(tick|tell) /.test(lines[line - 1]));
  return [...new Set(own.map(({ record }) => record.line))];
}
export const withoutTriggered = (script, trace) => {
  const left = triggeredLines(script, trace);
  return version('without triggered updates', asLines(withoutLines(script, (_, line) => left.includes(line))));
};

// So many waves of triggered updates are made at most, each so many milliseconds after what came before.
const MOST_WAVES = 60, WAVE = 1000;
const CHANGES = /^(round|gain|drop|cost|costs|down|up|restart|hear|tell) /;

// The script in which each router whose routes have changed tells so a second later, wave after wave, until a later line of it is
// due. It asks for the trace of what it has so far: a generator of scripts, which is given traces.
export function* withTriggered(script, trace) {
  const { lines, origins } = apart(withoutLines(script, () => false), trace), done = [], from = [];
  let waves = 0, isStarted = false;
  for (const [at, line] of lines.entries()) {
    done.push(line);
    from.push(origins[at]);
    isStarted ||= STARTS.test(line);
    if (!isStarted || !CHANGES.test(`${line} `)) continue;
    const limit = dueAfter(trace, lines, origins, at);
    for (; waves < MOST_WAVES; waves++) {
      const so = yield `${done.join('\n')}\n`, state = so.steps.at(-1), now = state.now + WAVE;
      const tellers = now < limit ? state.routers.flatMap((router, number) => hasToTell(state, router, number, now) ? [number] : []) : [];
      if (tellers.length === 0) break;
      done.push(...tellers.map(router => `tell ${router} ${now} 0`));
      from.push(...tellers.map(() => origins[at]));
    }
  }
  return version('with triggered updates', { script: `${done.join('\n')}\n`, origins: from });
}
const hasToTell = ({ out }, { table, timers, quiet }, number, now) => !quiet && !out.has(`router ${number}`) && timers.hold <= now && now < timers.regular
  && [...table.values()].some(({ route }) => route.marked);

// Lines of several rounds as lines of one round each.
function apart(script, { steps }) {
  const lines = [], origins = [];
  script.replace(/\n*$/, '').split('\n').forEach((text, at) => {
    const [, count, gap] = /^rounds (\d+) \S+ (\d+)/.exec(text) ?? [], begun = steps.find(({ record }) => record.line === at + 1)?.record.now;
    const own = count && begun !== undefined ? Array.from({ length: Number(count) }, (_, round) => `round ${begun + round * Number(gap)}`) : [text];
    lines.push(...own);
    origins.push(...own.map(() => at + 1));
  });
  return { lines, origins };
}

// When the next of the lines behind one is due: the next round of the same line, or the first event of a later one.
function dueAfter({ steps }, lines, origins, at) {
  const [, next] = origins[at + 1] === origins[at] ? /^round (\d+)/.exec(lines[at + 1]) : [];
  return next ? Number(next) : steps.find(({ record }) => record.line > origins[at] && record.event)?.record.now ?? Infinity;
}

// ---- Beside the script ----
// The trace of a version, with the lines of the script in place of its own.
export function withLinesOf(trace, origins) {
  for (const { record } of new Set(trace.steps)) record.line = origins[record.line - 1] ?? origins.at(-1);
  return trace;
}

// What routers hold for the prefix in view in each version, where it is not the same.
export function versionsText(view) {
  const { versus: { name, trace, runs }, step } = view, all = [{ name, trace }, ...runs];
  const states = all.map(run => run.trace.steps[run.trace === trace ? step : stepBeside(trace, run.trace, step)]), prefix = prefixInView(view);
  if (!prefix || states.some(state => !state)) return html``;
  const rows = trace.ends.flatMap((_, router) => {
    const held = all.map((run, at) => heldText(run.trace, states[at], router, prefix));
    return new Set(held).size === 1 ? [] : [html`<b>${nameOf(trace, router)}</b>: ${held.map((text, at) => `${at > 0 ? ', ' : ''}${text} (${all[at].name})`)}. `];
  });
  const left = runs.filter(({ off }) => off > 0).map(run => html` <span>Lines that "${run.name}" refuses, left out of it: ${run.off}.</span>`);
  return rows.length > 0 ? html`${rows}${left}` : html`In each version the routers hold the same for ${prefix}.${left}`;
}
