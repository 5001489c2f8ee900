// Scripts in which one datagram more is lost.
import { spliced } from './building.js';
import { passingsOf, sentBeforeOf, turnsOf } from './losses.js';

// How a script loses a datagram: as an edit, with the step's line to go to; or `why` it cannot. A datagram that comes by a
// line is lost by another form of that line; one that is under way by a line of its own, put in behind `line`.
export function losing(trace, script, number, step, line) {
  const { arrivals, end } = trace.datagrams[number], arrival = arrivals.find(one => one.step >= step) ?? arrivals.at(-1);
  const lines = script.split('\n');
  if (!arrival) return edit(script, line, 0, [`lose ${number}`], 0);
  const { record } = trace.steps[arrival.step], at = record.line - 1, [text, remark = ''] = lines[at].split(/(?= +#)/);
  const words = text.split(' '), way = WAYS[words[0]];
  if (words[0] === 'run') return { why: `It comes in a run. Choose another SEED, or "link ${end.link} 0 50" before it: half of what is sent there is lost then.` };
  if (!way) return { why: 'It comes in a minute made by chance. Choose another SEED, or rounds.' };
  return way({ trace, script, number, at, words, remark, step: arrival.step, isShared: trace.links.get(end.link).length > 2 });
}

// Lines in place of others; and the number of the line to go to, the last that was put in but for so many.
function edit(script, at, remove, lines, behind) {
  return { ...spliced(script, [{ at, remove, lines }]), goTo: at + lines.length - behind };
}

const WAYS = {
  // On a link of two nobody else is to receive it; on others they are.
  deliver: ({ script, number, at, isShared }) =>
    edit(script, at, 1, [isShared ? `# Datagram ${number} is lost on the way to this router.` : `lose ${number}`], 0),
  tell({ trace, script, number, at, words, remark, step }) {
    const first = trace.steps.findLast(({ record }, other) => other < step && record.event?.kind === 'tick').record.sent[0].datagram;
    const butted = words.includes('but') ? words : [...words, 'but'];
    return edit(script, at, 1, [`${[...butted, number - first].join(' ')}${remark}`], 0);
  },
  hear: ({ script, number, at }) => edit(script, at, 0, [`lose ${number}`], 0),
  round: ({ trace, script, number, at, step }) =>
    edit(script, at, 1, roundApart(trace, script, number, step).lines, 0),
  rounds: roundsApart,
};

// The turn of a round that a step belongs to as lines: each tick, the loss, and the rest delivered. What the round passes
// by is passed by before it.
function roundApart(trace, script, number, step) {
  const passings = passingsOf(trace, script.split('\n')), at = passings.findIndex(({ turn }) => turn.includes(step));
  const { turn } = passings[at], sentBefore = sentBeforeOf(trace.steps, trace.datagrams);
  const pending = sentBefore(turn[0]) - Math.max(0, ...passings.slice(0, at).map(({ below }) => below));
  const ticks = turn.map(one => trace.steps[one].record).filter(({ event }) => event?.kind === 'tick');
  const passed = pending > 0 ? [`hear but ${Array.from({ length: pending }, (_, index) => index).join(' ')}`] : [];
  return { turn, lines: [...passed, ...ticks.map(({ router, now }) => `tick ${router} ${now} 0`), `lose ${number}`, 'hear'] };
}

// The rounds before stay together, and those after.
function roundsApart({ trace, script, number, at, words, step }) {
  const own = [...trace.steps.keys()].filter(one => trace.steps[one].record.line === at + 1);
  const turns = turnsOf(trace.steps, own), turn = turns.findIndex(steps => steps.includes(step));
  const gap = Number(words[3]), begun = trace.steps[turns[0][0]].record.now, rest = Number(words[1]) - turn - 1;
  const many = (count, from) => count === 0 ? [] : [count === 1 ? `round ${from}` : `rounds ${count} ${from} ${gap}`];
  const apart = roundApart(trace, script, number, step).lines;
  return edit(script, at, 1, [...many(turn, begun), ...apart, ...many(rest, begun + (turn + 1) * gap)], rest > 0 ? 1 : 0);
}
