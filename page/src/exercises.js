// Exercises: what is filled in and at which try, the equation behind a blank, and the solution as a file.
import { nameOf } from './trace.js';
import { UNREACHABLE, entriesOf, prefixKey } from './datagrams.js';
import { expectationsOf, isExercise, withAnswer } from './lessons.js';

import { html } from './markup.js';

// ---- Tries ----
// The remark at the end of a line `expect` that says how often it was tried.
const TRY = / *# (?:first try|try (\d+)|(\d+) wrong)$/;
const wrongIn = line => Number(/ # (\d+) wrong$/.exec(line)?.[1] ?? 0);

// A script in which the blank of a line was answered: what is right takes its place, and what is wrong is counted.
export function answered(script, line, answer, found) {
  const lines = script.split('\n'), wrong = wrongIn(lines[line - 1]), isRight = answer === found;
  const told = !isRight ? `${wrong + 1} wrong` : wrong === 0 ? 'first try' : `try ${wrong + 1}`;
  const bare = lines.with(line - 1, lines[line - 1].replace(TRY, '')).join('\n');
  const after = withAnswer(bare, line, isRight ? answer : '?').split('\n');
  return after.with(line - 1, `${after[line - 1]} # ${told}`).join('\n');
}

// The exercise again: with a blank in place of each answer that was given here.
export const blanked = script =>
  script.replace(/^(expect \S+ \S+) \S+(.*?) *# (?:first try|try \d+|\d+ wrong)$/gm, '$1 ?$2').replace(/^# Solved: .*\n/m, '');

// How many blanks a script has or had, how many are filled in, and how many of them at the first try.
export function triesOf(script) {
  const lines = script.split('\n'), ends = expectationsOf(script).map(({ line, wanted }) => ({ wanted, text: lines[line - 1] }));
  const filled = ends.filter(({ wanted, text }) => wanted !== '?' && TRY.test(text));
  const open = ends.filter(({ wanted }) => wanted === '?');
  return { all: filled.length + open.length, filled: filled.length, first: filled.filter(({ text }) => text.endsWith(' first try')).length };
}
// Those of an exercise, else null; of the script that was asked about last they are kept, since a step asks again.
const triesOfLatest = { script: null, tries: null };
function keptTries(script) {
  if (triesOfLatest.script !== script) Object.assign(triesOfLatest, { script, tries: isExercise(script) ? triesOf(script) : null });
  return triesOfLatest.tries?.all > 0 ? triesOfLatest.tries : null;
}
const triesText = ({ all, filled, first }) => `${filled} of ${all}, ${first} at the first try`;

// The solution, whose last remark says how it was found. `ripngd lab --against` marks it.
export function solutionOf(script, name) {
  const bare = script.replace(/^# Solved: .*\n/m, '').replace(/\n*$/, '\n');
  return `${bare}# Solved: ${name}, ${triesText(triesOf(script))}.\n`;
}

// How far an exercise is; and what can be done at its end.
export function progressOf({ script, checks = [], step }) {
  const tries = keptTries(script), next = checks.find(({ isBlank }) => isBlank);
  if (!tries) return html``;
  const told = html`<span id="progress">${triesText(tries)}.</span>`;
  if (next) return html`${told}${next.step > step ? html`<button data-act="toBlank">to the next blank</button>` : ''}`;
  return html`${told}<span class="choices"><button data-act="saveSolution">save the solution</button>
    <button data-act="saveExercise">save the exercise</button><button data-act="otherNumbers">again with other numbers</button></span>`;
}

// ---- The equation ----
// What decides what a blank asks for, as a question: whom the router has heard, and what it has to add. What
// is veiled in a datagram is not told.
export function equationOf({ whole: trace }, { router, prefix, step }) {
  const { table } = trace.steps[step].routers[router], key = prefixKey(prefix.toLowerCase()), name = nameOf(trace, router);
  const entry = [...table.values()].find(({ route }) => prefixKey(route.prefix) === key);
  if (!entry) return absent(trace, step, router, key, name);
  const { record } = trace.steps[entry.cause], { event } = record;
  if (!entry.route.gateway && entry.route.metric < UNREACHABLE) return `${name} originates it. Which metric has an owner?`;
  if (event?.kind === 'tick') return `${name} has heard nothing of it from its next hop for 180 s. What becomes of the route then?`;
  if (event?.kind === 'drop') return `${name} originates it no longer. Which metric says that?`;
  if (event?.kind !== 'deliver' && event?.kind !== 'liar') return `What does ${describeKind(event)} make of the route of ${name}?`;
  return sumAsked(trace, entry, router, key);
}
const describeKind = event => ({ link_down: 'a link that is down', restart: 'a restart', shutdown: 'a good-bye' }[event?.kind] ?? 'this event');

// Why a router has no route.
function absent({ steps }, step, router, key, name) {
  const isGone = ({ record }) => record.router === router && record.gone?.some(prefix => prefixKey(prefix) === key);
  const at = steps.slice(0, step + 1).findLastIndex(isGone), kind = steps[at]?.record.event?.kind;
  if (kind === 'restart') return `${name} has restarted. What has it heard since?`;
  if (at >= 0) return `The route of ${name} was unreachable, and 120 s have passed. What becomes of it then?`;
  return `Which updates has ${name} received so far, and which prefixes do they advertise?`;
}

function sumAsked(trace, { cause }, router, key) {
  const { record: { event, offers } } = trace.steps[cause], name = nameOf(trace, router), datagram = trace.datagrams[event.datagram];
  const { cost } = trace.steps[cause].routers[router].interfaces[event.iface], isOf = ({ prefix }) => prefixKey(prefix) === key;
  const told = datagram ? entriesOf(datagram.bytes).find(isOf)?.metric : offers?.find(isOf)?.metric - cost;
  const who = datagram ? nameOf(trace, datagram.router) : `A forged Response of ${event.source}`;
  if (told >= UNREACHABLE) return `${who}, from which ${name} has the route, says that there is no path. What does ${name} believe?`;
  return `${who} advertises ${told || 'a metric that is asked for, too'}, and to receive it costs ${name} ${cost}. What is the sum? Infinity is the most.`;
}

