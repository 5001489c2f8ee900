// Random scripts in which much goes wrong, for tests/page/page.mjs: what is said on top of the drawing, next hops, the staircase and marks, each
// against what the program prints of the same script.
import { readTrace } from '../../page/src/trace.js';
import { metricRuns } from '../../page/src/walks.js';
import { waysOf } from '../../page/src/packets.js';
import { verdictOf } from '../../page/src/forwarding.js';
import { checksOf, expectationsOf } from '../../page/src/lessons.js';

// Each prefix with an address in it that no other of them has as a longer one.
const WITHIN = { '2001:db8::/32': '2001:db8:f::1', '2001:db8:1::/48': '2001:db8:1::7', '::/0': '9::1', '2001:0:0:1::/64': '2001:0:0:1::5' };
const ACTS = 14;

// ---- Scripts ----
// A network in which time passes in rounds, links are cut or go down, routers fail and come back, costs and owners change; and behind
// some of that what all routers hold is printed, and where their packets go.
function eventfulScript({ below, pick, randomNetwork }) {
  const lines = randomNetwork(), routers = lines.filter(line => line.startsWith('router')).length, ifaces = lines.filter(line => line.startsWith('iface'));
  const [, target] = /^own (\S+)/m.exec(lines.join('\n')), links = [...new Set(ifaces.map(line => line.split(' ')[4]))], owners = ownersIn(lines);
  let now = 0;
  for (let at = 0; at < ACTS; at++) {
    const router = below(routers), link = pick(links), own = owners[router];
    const acts = [() => `rounds ${1 + below(4)} ${now} 30000`, () => `rounds ${1 + below(2)} ${now} 30000`, () => `round ${now}`, () => pick([`cut ${link}`, `mend ${link}`]), () => pick([`down ${link} ${now}`, `up ${link} ${now}`]),
      () => pick([`silent ${router}`, `speaks ${router}`]), () => `cost ${router} 0 ${now} ${1 + below(9)}`, () => `tell ${router} ${now}`, () => `restart ${router} ${now}`,
      () => own.size > 0 ? `drop ${router} ${now} ${taken(own)}` : `gain ${router} ${now} ${put(own, target)} 3`];
    lines.push(pick(acts)());
    // What is withdrawn goes round for some rounds.
    const isWithdrawn = lines.at(-1).startsWith('drop');
    if (isWithdrawn) lines.push(`rounds ${1 + below(3)} ${now + 1000} 30000`);
    now += 120_000;
    if (isWithdrawn || at === ACTS - 1 || below(3) === 0) lines.push('print', ...Array.from({ length: routers }, (_, from) => `path ${from} ${WITHIN[target]}`));
  }
  return { lines, target };
}

function ownersIn(lines) {
  const owners = [];
  for (const line of lines) {
    if (line.startsWith('router')) owners.push(new Set());
    if (line.startsWith('own')) owners.at(-1).add(line.split(' ')[1]);
  }
  return owners;
}
function taken(own) {
  const [first] = own;
  own.delete(first);
  return first;
}
function put(own, prefix) {
  own.add(prefix);
  return prefix;
}

// ---- What the program prints ----
// At each `print` the metrics that are held, which may be none, and the ways of packets that stand behind it, each with its end.
function printsIn(script, text) {
  const lines = script.split('\n'), prints = [];
  const answers = text.split('\n').filter(line => line && !line.startsWith('line ')), starts = lines.flatMap((line, at) => line === 'print' ? [at + 1] : []);
  for (const answer of answers) {
    const [router, thing, kind, ...words] = answer.split(' '), isRoute = kind === 'metric', isOver = prints.length === 0 || prints.at(-1).ways.size > 0;
    if (isOver && (isRoute || kind === 'path' && router === '0')) prints.push({ line: starts[prints.length], held: new Map(), ways: new Map() });
    const { held, ways } = prints.at(-1);
    if (isRoute) held.set(`${router} ${thing}`, Number(words[0]));
    else if (kind === 'path') ways.set(Number(router), wayIn(words));
    else ways.get(Number(router)).lost = lossIn(words.join(' '));
  }
  return prints;
}
function wayIn(words) {
  const way = words.filter((word, at) => /^\d+$/.test(word) && words[at - 1] !== 'from').map(Number), end = words.slice(way.length).join(' ');
  return { way, end: /^loops/.test(end) ? 'circle' : end === 'delivered' ? 'arrive' : 'drop', back: Number(/loops from (\d+)/.exec(end)?.[1] ?? -1), lost: null };
}
const lossIn = text => text.endsWith('silent') ? `R${/^at (\d+)/.exec(text)[1]}` : `link ${/link (\d+)/.exec(text)[1]}, which is cut`;

// What is to be said on top, of the routers that are up.
function verdictFrom({ ways }, silent, prefix) {
  const groups = new Map(), named = routers => routers.map(router => `R${router}`).join(', ');
  for (const [router, { way, end, back, lost }] of ways) {
    const ring = [...new Set(way.slice(way.indexOf(back)))].sort((a, b) => a - b);
    const told = lost ? `are lost at ${lost}` : { circle: `circle in a loop of ${named(ring)}`, drop: 'are dropped: there is no route', arrive: '' }[end];
    if (!silent.has(router)) groups.set(told, [...groups.get(told) ?? [], router]);
  }
  const sick = [...groups].filter(([told]) => told).map(([told, routers]) => `from ${named(routers)} ${told}`);
  return sick.length === 0 ? `Packets for ${prefix} arrive from each router.` : `Packets for ${prefix} ${sick.join('; ')}.`;
}

function silentAt(lines, line) {
  const silent = new Set();
  for (const [word, router] of lines.slice(0, line).map(text => text.split(' '))) {
    if (word === 'silent') silent.add(Number(router));
    if (word === 'speaks') silent.delete(Number(router));
  }
  return silent;
}

// ---- Marks ----
// The script with what is held at each `print` expected there, and one that is wrong in some scripts.
function expecting({ lines }, prints, { below }) {
  const wrongAt = below(3) === 0 ? below(prints.length) : -1, wanted = [...lines];
  for (const [at, { line, held }] of [...prints.entries()].reverse()) {
    const all = [...held].map(([key, metric]) => `expect ${key} ${metric}`), [first] = all, wrong = first?.replace(/\d+$/, metric => 1 + Number(metric) % 16);
    wanted.splice(line, 0, ...all.slice(0, 4), ...at === wrongAt && wrong ? [wrong] : []);
  }
  return `${wanted.join('\n')}\n`;
}

function checkMarks(same, script, text, trace) {
  const [, line, found] = /^line (\d+) expected .* found (\S+)$/m.exec(text) ?? [], checks = checksOf(trace, expectationsOf(script));
  const wanted = expectationsOf(script).filter(one => !line || one.line <= Number(line)).map(one => one.line === Number(line) ? [one.line, false, found] : [one.line, true, one.wanted]);
  same('the marks', checks.map(one => [one.line, one.isMet, one.found]), wanted);
  return checks.length;
}

// ---- One script ----
export function checkJudged({ ran, same, prefixes, ...chance }) {
  const made = eventfulScript(chance), plain = `${made.lines.join('\n')}\n`, script = expecting(made, printsIn(plain, ran(plain)), chance);
  const text = ran(script), trace = readTrace(ran(script, '--trace'), script), lines = script.split('\n'), prints = printsIn(script, text);
  const runs = trace.ends.map((_, router) => new Map(prefixes.map(prefix => [prefix, metricRuns(trace, router, prefix)])));
  for (const { line, held, ways } of prints.filter(one => one.ways.size === trace.ends.length)) {
    const step = trace.steps.findIndex(({ record }) => record.line === line), state = trace.steps[step], view = { trace, step, chosen: null };
    const stairs = runs.flatMap((own, router) => [...own].map(([prefix, all]) => [`${router} ${prefix}`, all.findLast(run => run.step <= step)?.metric]));
    same(`the staircases at line ${line}`, stairs, stairs.map(([key]) => [key, held.get(key)]));
    const found = waysOf(trace, state, WITHIN[made.target]).map(({ hop, fate }) => [hop?.to.router ?? null, fate]);
    same(`next hops at line ${line}`, found, [...ways.values()].map(({ way, end, lost }) => [way[1] ?? null, lost ? 'lose' : end]));
    const said = verdictOf(view).text.replace(/<[^>]*>/g, '').replace(/ (?:Routes still change\.|No route has changed for \d+ s\.|)$/, '');
    same(`what is said on top at line ${line}`, said, verdictFrom({ ways }, silentAt(lines, line), made.target));
  }
  return { prints: prints.length, marks: checkMarks(same, script, text, trace), fates: prints.flatMap(({ ways }) => [...ways.values()].map(({ end, lost }) => lost ? 'lose' : end)) };
}
