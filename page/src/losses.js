// Which datagrams are lost, and at which step: what a line of rounds has passed by, what a line says that is lost, and
// what was overtaken and never comes.

// Lines that deliver all that was sent; what they leave out, nobody is to receive. (docs/SCRIPTS.md, Passed by.)
const DELIVERING = /^(round|rounds|tell|hear|phases|run)( |$)/;
// A run delivers what is under way when it is due: at its end more may be, which a later run delivers, though no `hear`.
const isRun = text => /^run /.test(text ?? '');

// A passing is a step at which all datagrams with a number `below` are passed by.
export function addLosses(trace, script) {
  const lines = script.split('\n'), passings = passingsOf(trace, lines).filter(({ line }) => !isRun(lines[line - 1])), overdue = overdueBy(trace, lines);
  let next = 0;
  for (const datagram of trace.datagrams) {
    while (passings[next]?.below <= datagram.datagram) next++;
    if (datagram.doneAt === Infinity) datagram.lostAt = Math.min(lossOf(trace, datagram, passings, next), overdue(datagram));
  }
  trace.steps.forEach(({ record }, step) => {
    const lost = record.record === 'lost' ? trace.datagrams[record.datagram] : null;
    if (lost?.doneAt === Infinity) lost.lostAt = Math.min(lost.lostAt, step);
  });
}

function lossOf(trace, { datagram, end, sentAt, arrivals }, passings, next) {
  const others = trace.links.get(end.link).filter(other => other !== end);
  const latest = Math.max(sentAt, ...arrivals.map(({ step }) => step));
  const missing = others.filter(other => !arrivals.some(arrival => arrival.end === other));
  if (missing.length === 0) return sentAt;
  const passing = passings.slice(next).find(({ step }) => step >= latest);
  if (passing) return passing.step;
  const later = end.sent.filter(other => other.datagram > datagram);
  return Math.max(...missing.map(other => overtakenAt(later, other, latest)));
}

// In a run a datagram that has not come is lost as soon as it is later than it would have come: at once, or after the DELAY of its
// link. What was sent before the run sets out as it begins.
function overdueBy({ steps }, lines) {
  const runs = [...stepsByLine(steps)].filter(([line]) => isRun(lines[line - 1])), delays = lines.map(text => /^link (\d+) (\d+)/.exec(text)?.slice(1).map(Number));
  if (runs.length === 0) return () => Infinity;
  return ({ sentAt, end: { link } }) => {
    const [line, own] = runs.find(([, all]) => all.at(-1) >= sentAt) ?? [], begin = Math.max(0, (own?.[0] ?? 0) - 1);
    if (!own) return Infinity;
    const delay = delays.slice(0, line).findLast(one => one?.[0] === link)?.[1] ?? 0, due = steps[Math.max(sentAt, begin)].now + delay;
    return runs.flatMap(([, all]) => all).find(step => step > sentAt && steps[step].record.event && steps[step].record.now > due) ?? Infinity;
  };
}

// The step at which a later datagram comes to an end.
function overtakenAt(later, end, from) {
  const steps = later.flatMap(({ arrivals }) => arrivals.filter(({ end: to, step }) => to === end && step >= from));
  return Math.min(...steps.map(({ step }) => step), Infinity);
}

// The passings of a script in order, each with its line and the first step of its turn.
export function passingsOf({ steps, datagrams }, lines) {
  const stepsOf = stepsByLine(steps), sentBefore = sentBeforeOf(steps, datagrams);
  return lines.flatMap((text, at) => {
    const own = stepsOf.get(at + 1) ?? [];
    if (!DELIVERING.test(text)) return [];
    if (own.length === 0) return emptyPassing(steps, at + 1, sentBefore);
    const isByChance = /^(phases|run)/.test(text), turns = isByChance ? [own] : turnsOf(steps, own);
    return turns.map(turn => {
      const first = turn.find(step => steps[step].record.event?.datagram !== undefined) ?? turn.at(-1) + 1;
      const below = sentBefore(isByChance ? turn.at(-1) + 1 : first);
      return { line: at + 1, turn, step: turn.at(-1), below };
    });
  });
}

// The steps of each line.
export function stepsByLine(steps) {
  const found = new Map();
  steps.forEach(({ record: { line } }, step) => {
    if (!found.has(line)) found.set(line, []);
    found.get(line).push(step);
  });
  return found;
}

// A line that delivers nothing passes by all the same: that is seen at the step after it.
function emptyPassing(steps, line, sentBefore) {
  const step = steps.findIndex(({ record }) => record.line > line), last = steps.length - 1;
  return last < 0 || steps[last].record.record === 'refused' && steps[last].record.line <= line ? []
    : [{ line, turn: [], step: step < 0 ? last : step, below: sentBefore(step < 0 ? last + 1 : step) }];
}

// How many datagrams were sent before a step.
export function sentBeforeOf(steps, datagrams) {
  const counts = [0];
  for (const { record } of steps) counts.push(counts.at(-1) + (record.sent?.length ?? 0));
  return step => Math.min(counts[Math.min(step, steps.length)], datagrams.length);
}

// The steps of a line by its turns: in each the routers tick, and then what they sent comes.
export function turnsOf(steps, own) {
  const turns = [], isTick = step => steps[step].record.event?.kind === 'tick';
  for (const step of own) {
    if (turns.length === 0 || isTick(step) && !isTick(step - 1)) turns.push([]);
    turns.at(-1).push(step);
  }
  return turns;
}

// Whether the cross of a lost datagram is left out: the Requests of the start, which the first round passes by.
export const isAskedInVain = ({ sentAt, bytes }) => sentAt === 0 && bytes.startsWith('01');
