// Scripts in which a link or a router is no more: what stood for it goes, and what follows is numbered anew.
import { linkIn, linksIn, namesOf, withLink } from './building.js';
import { namedIn, renumbered, staleLine } from './numbering.js';

// Where each kind of line names a router and an interface of it, by the number of the word.
export const NAMES_AT = { deliver: [2, 3], cost: [1, 2], stranger: [1, 2], ask: [1, 2], liar: [1, 2], tick: [1], tell: [1], silent: [1], speaks: [1],
  horizon: [1],
  gain: [1], drop: [1], restart: [1], shutdown: [1], print: [1], path: [1], expect: [1], 'expect path': [2] };

// The script without `link N` or `router N`, as an edit. `renamed` has of a router and an interface of it their new numbers;
// null where they are no more. An interface that would be its router's last stays, on a link of its own.
export function without(trace, script, thing) {
  const [kind, text] = thing.split(' '), number = Number(text), isRouter = kind === 'router';
  const removed = linksWithout(trace, isRouter ? number : -1, isRouter ? [] : [number]);
  const left = trace.ends.map((ends, router) => isRouter && router === number ? [] : ends.filter(({ link }) => !removed.includes(link)));
  const stays = trace.ends.map((ends, router) => left[router].length > 0 || isRouter && router === number ? left[router] : ends.slice(0, 1));
  const renamed = (router, iface = null) => {
    const now = router - (isRouter && router > number ? 1 : 0), at = stays[router]?.indexOf(trace.ends[router][iface]);
    return !stays[router] || isRouter && router === number || iface !== null && at < 0 ? null : { router: now, iface: iface === null ? null : at };
  };
  const { datagrams } = trace;
  return { ...rewritten(script, { removed, stays, left, renamed, datagrams, gone: isRouter ? number : -1 }), renamed };
}

// The links that go: those that were named, and those of a router that go on to one other alone.
function linksWithout({ links }, router, named) {
  const own = [...links].filter(([, ends]) => ends.some(end => end.router === router) && ends.length <= 2).map(([link]) => link);
  return [...named, ...own];
}

function rewritten(script, change) {
  const lines = script.replace(/\n*$/, '').split('\n'), kept = [], names = new Map([...namesOf(script)].map(([router, name]) => [name, router]));
  const place = { router: -1, iface: -1 }, free = Math.max(-1, ...linksIn(lines)) + 1;
  const scope = { ...change, names, place, free, isBuilt: false };
  lines.forEach((text, at) => {
    const now = lineWithout(text, scope), isAnnounced = /^refused /.test(kept.at(-1)?.text);
    if (now !== null) kept.push({ text: now, origin: at + 1 });
    else if (isAnnounced) kept.pop();
  });
  return { script: [...kept.map(({ text }) => text), ''].join('\n'), origins: kept.map(({ origin }) => origin), lost: lines.length - kept.length };
}

// A line as it is without what was removed; null where it goes.
function lineWithout(text, scope) {
  const [word, ...words] = text.split(' ');
  if (text.startsWith('#places ')) return placesWithout(text, scope);
  if (word === 'cold') scope.isBuilt = true;
  if (!scope.isBuilt && /^(router|iface|own)$/.test(word)) return partWithout(text, word, scope);
  if (/^(cut|mend|down|up|costs|link)$/.test(word)) return scope.removed.includes(Number(words[0])) ? null : text;
  const sent = scope.datagrams[namedIn(text)];
  if (sent && !scope.renamed(sent.router, sent.iface)) return null;
  return NAMES_AT[word] ? namedWithout(text, scope) : text;
}

// A line of a router before the start.
function partWithout(text, word, { place, gone, stays, left, removed, free }) {
  if (word === 'router') Object.assign(place, { router: place.router + 1, iface: -1 });
  if (word === 'iface') place.iface++;
  const { router, iface } = place, isKept = stays[router]?.some(end => end.iface === iface);
  if (router === gone || word === 'iface' && !isKept) return null;
  const isAlone = word === 'iface' && left[router].length === 0 && removed.includes(linkIn(text));
  return isAlone ? withLink(text, free + router) : text;
}

// A line that names a router, and perhaps an interface of it.
function namedWithout(text, { names, renamed }) {
  const words = text.split(/( +)/), form = /^expect path \S+ \S+ \S/.test(text) ? 'expect path' : words[0];
  const [routerAt, ifaceAt] = NAMES_AT[form].map(at => 2 * at), name = words[routerAt];
  const router = names.get(name) ?? (/^\d+$/.test(name ?? '') ? Number(name) : null), iface = ifaceAt ? Number(words[ifaceAt]) : null;
  if (router === null) return text;
  const now = renamed(router, iface);
  if (!now) return null;
  if (!names.has(name)) words[routerAt] = now.router;
  if (ifaceAt) words[ifaceAt] = now.iface;
  return words.join('');
}

function placesWithout(text, { renamed }) {
  const all = [...text.matchAll(/(\d+) (-?[\d.]+ -?[\d.]+)/g)].flatMap(([, router, place]) => {
    const now = renamed(Number(router));
    return now ? [`${now.router} ${place}`] : [];
  });
  return all.length > 0 ? `#places ${all.join(', ')}` : null;
}

// The next state of an edited script, from its trace; null where it is settled. First its lines name the datagrams that they
// named before. Where something was removed, a line that is refused now is set aside then, as a remark that is none, and one
// that names a datagram that is not sent any more; `off` says how many lines that were.
export function settling(before, edit, trace) {
  const script = renumbered(before, edit, trace), last = trace.steps.at(-1)?.record;
  if (script !== edit.script) return { script, off: 0 };
  const line = edit.renamed && (staleLine(before, edit, trace) ?? (last?.record === 'refused' ? last.line : null));
  return line ? { script: withLineOff(script, line), off: 1 } : null;
}

// With a line goes what announces that it is refused.
function withLineOff(script, line) {
  const lines = script.split('\n'), isAnnounced = /^refused /.test(lines[line - 2]);
  return lines.map((text, at) => at === line - 1 || isAnnounced && at === line - 2 ? `#off ${text}` : text).join('\n');
}
