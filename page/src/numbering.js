// Numbers of datagrams: they are numbered as they are sent, so lines that name them change where a script is edited before.
import { passingsOf } from './losses.js';

// A datagram is known by the line that sent it, its interface, and how many that line sent there before. Where routers and
// interfaces have other numbers now, `renamed` says which; what is no more has no key.
export function keysOf({ datagrams, steps }, originOf = line => line, renamed = (router, iface) => ({ router, iface })) {
  const counts = new Map();
  return datagrams.map(({ router, iface, sentAt }) => {
    const now = renamed(router, iface), end = now && `${originOf(steps[sentAt].record.line)} ${now.router} ${now.iface}`;
    if (!now) return null;
    const count = counts.get(end) ?? 0;
    counts.set(end, count + 1);
    return `${end} ${count}`;
  });
}

// Lines that name a datagram by its number, and those that leave out some of what they deliver.
const NAMING = /^(deliver|lose|sent) (\d+)/, LEAVING = /^(tell \S+ \S+(?: \S+)?|hear) but (\d+(?: \d+)*)/;
export const hasNumbers = script => script.split('\n').some(line => NAMING.test(line) || LEAVING.test(line));
export const namedIn = line => { const found = NAMING.exec(line); return found ? Number(found[2]) : null; };

// The script as it was edited, with the numbers that its datagrams have in its trace. `old` is the script before, `was` its
// trace, and `had` the keys of its datagrams. A line that names one that was never sent, and is refused, stays as it is.
export function renumbered({ had, was, old }, { script, origins }, trace) {
  const keys = keysOf(trace, line => origins[line - 1]), now = new Map(keys.map((key, number) => [key, number]));
  const before = old.split('\n'), lines = script.split('\n'), numberOf = number => now.get(had[number]);
  return lines.map((line, at) => {
    const text = before[origins[at] - 1] ?? '', number = namedIn(text);
    if (number !== null && NAMING.test(line) && numberOf(number) !== undefined) return line.replace(/ \d+/, ` ${numberOf(number)}`);
    if (!LEAVING.test(text) || !LEAVING.test(line)) return line;
    const [from, to] = [leftFrom(was, before, origins[at]), leftFrom(trace, lines, at + 1)];
    const named = LEAVING.exec(text)[2].split(' ').map(count => from + Number(count));
    if (from === null || to === null || named.some(number => had[number] === undefined)) return line;
    const left = named.map(number => numberOf(number) - to).filter(count => count >= 0);
    return line.replace(LEAVING, (_, words) => left.length > 0 ? `${words} but ${left.join(' ')}` : words);
  }).join('\n');
}

// The datagram from which a line counts those that it leaves out; null where the trace does not come to it.
function leftFrom(trace, lines, line) {
  if (lines[line - 1].startsWith('tell')) return trace.datagrams.find(({ sentAt }) => trace.steps[sentAt].record.line === line)?.datagram ?? null;
  return Math.max(0, ...passingsOf(trace, lines).filter(passing => passing.line < line).map(({ below }) => below));
}

// The first line of an edited script that names a datagram that is not sent any more, of those that its trace comes to.
export function staleLine({ had, old }, { script, origins }, trace) {
  const keys = new Set(keysOf(trace, line => origins[line - 1])), last = trace.steps.at(-1)?.record, before = old.split('\n');
  const reached = last?.record === 'refused' ? last.line : Infinity;
  const at = script.split('\n').findIndex((line, index) => {
    const number = namedIn(before[origins[index] - 1] ?? '');
    return index + 1 <= reached && number !== null && namedIn(line) !== null && !keys.has(had[number]);
  });
  return at < 0 ? null : at + 1;
}
