// The trace of a script, read: what the network was after each step.
import { namesOf } from './building.js';
import { addLosses } from './losses.js';
import { routeFor, targetIn } from './packets.js';

// A step is a record of the trace, or a line that has none, with the network as it was after it: the routers, their latest
// moment, how much `earlier` it is than what came before it, what is out (`link N` that is cut, `router R` that is silent, each
// with the line that says so), and `least`, kept least costs.
export function readTrace(text, script = '') {
  const trace = { steps: [], datagrams: [], links: new Map(), ends: [], routerAt: new Map(), names: namesOf(script), latest: [], kept: null };
  const lines = script.split('\n'), isForged = ({ line }) => lines[line - 1]?.trim().startsWith('liar');
  const records = text.split('\n').filter(Boolean).map(line => JSON.parse(line)), outages = outagesIn(lines, trace.names);
  for (const record of withOutages(records, outages)) addRecord(trace, record, isForged);
  addOutages(trace, outages);
  addLosses(trace, script);
  return trace;
}

// A router's name: that of the script, else R and its number.
export const nameOf = ({ names }, router) => names.get(router) ?? `R${router}`;

// The Requests that a router sends by itself follow the record of that, and have it as `asks`.
function addRecord(trace, record, isForged) {
  const step = trace.steps.length;
  if (record.record === 'start') addEnds(trace, record.routers);
  const before = trace.steps.at(-1)?.record, asks = before?.record === 'asks' ? before : before?.asks;
  if (record.event?.kind === 'link_up' && asks?.router === record.router && asks.line === record.line) record.asks = asks;
  for (const sent of record.sent ?? []) addDatagram(trace, sent, step, record);
  if (record.event?.kind === 'liar' && !isForged(record)) addDatagramOf(trace, record);
  if (record.event?.datagram !== undefined) addArrival(trace, record, step);
  const routers = routersAfter(trace.latest, record, step), last = trace.steps.at(-1)?.now ?? 0, back = last - record.now;
  const now = routers === trace.latest ? last : routers.reduce((most, { timers }) => Math.max(most, timers.last), 0);
  const earlier = record.event && back > 0 ? `${back / 1000} s before what came last` : null;
  trace.latest = routers;
  trace.steps.push(routers.length > MANY_KEPT ? slimStep({ record, now, earlier }, trace) : { record, routers, now, earlier });
}

// A step of a large network keeps the router that it changed, and each so many steps there are all of them.
const MANY_KEPT = 256, BETWEEN = 64;
function slimStep(step, trace) {
  const { record: { record, router } } = step, { latest } = trace, isFull = !trace.kept || trace.kept.log.length >= BETWEEN;
  if (isFull || record === 'start') trace.kept = { base: latest, log: [] };
  else if (record === 'event') trace.kept.log.push([router, latest[router]]);
  const { base, log } = trace.kept, count = log.length;
  return Object.defineProperty(step, 'routers', { enumerable: true, get: () => routersOf(base, log, count) });
}

// Those that were made last are kept: the page asks for the same steps again and again.
const MOST_MADE = 8, made = [];
function routersOf(base, log, count) {
  const had = made.find(one => one.log === log && one.count === count);
  if (had) return had.routers;
  const routers = base.slice();
  for (const [router, state] of log.slice(0, count)) routers[router] = state;
  made.unshift({ log, count, routers });
  made.length = Math.min(made.length, MOST_MADE);
  return routers;
}

// An end is an interface on its link, with what it sent.
function addEnds(trace, routers) {
  trace.ends = routers.map(({ interfaces }, router) =>
    interfaces.map(({ addr, link }, iface) => ({ router, iface, addr, link, sent: [] })));
  for (const end of trace.ends.flat()) {
    trace.links.set(end.link, [...trace.links.get(end.link) ?? [], end]);
    trace.routerAt.set(end.addr, end.router);
  }
}

// Who sent from an address, in words: a router of the network, or by its address a host outside of it.
export const senderAt = (trace, address) =>
  trace.routerAt.has(address) ? nameOf(trace, trace.routerAt.get(address)) : address;

// A datagram has its arrivals; `doneAt` is the step at which it has come to all others of its link, `lostAt` that at which
// it is lost. A Request of a router that lost a route has the record that says so, `asks`, and a Response that answers
// another datagram has its number, `answers`.
function addDatagram(trace, sent, step, { asks = null, event }) {
  const end = trace.ends[sent.router][sent.iface], answers = event?.kind === 'deliver' ? event.datagram : null;
  trace.datagrams.push({ ...sent, end, asks, answers, sentAt: step, arrivals: [], doneAt: Infinity, lostAt: Infinity });
  end.sent.push(trace.datagrams.at(-1));
}

// What a router with another horizon sent comes in place of its newest datagram that has not come there, which has it as `came`.
function addDatagramOf(trace, { router, event }) {
  const to = trace.ends[router][event.iface], from = trace.links.get(to.link).find(({ addr }) => addr === event.source);
  const datagram = from?.sent.findLast(one => !hasCome(one, to, Infinity));
  if (datagram) Object.assign(event, { datagram: datagram.datagram, sender: from });
  if (datagram) datagram.came = event.bytes;
}

function addArrival(trace, { router, event }, step) {
  const datagram = trace.datagrams[event.datagram], { arrivals, end } = datagram;
  arrivals.push({ end: trace.ends[router][event.iface], step });
  const isDone = otherEnds(trace, end).every(other => hasCome(datagram, other, step));
  if (isDone) datagram.doneAt = Math.min(datagram.doneAt, step);
}

function routersAfter(routers, record, step) {
  if (record.record === 'start') {
    return record.routers.map(router => ({ ...router, table: tableAfter(new Map(), { ...router, gone: [] }, step) }));
  }
  if (record.record !== 'event') return routers;
  const { router, timers, event: { kind, iface, cost, prefix, tag } } = record;
  let { quiet, interfaces, prefixes, table } = routers[router];
  if (kind === 'cost') interfaces = interfaces.with(iface, { ...interfaces[iface], cost });
  if (kind === 'gain') prefixes = [...prefixes, { prefix, tag }];
  if (kind === 'drop') prefixes = prefixes.filter(own => own.prefix !== prefix);
  return routers.with(router, { quiet, interfaces, prefixes, timers, table: tableAfter(table, record, step) });
}

// An entry of a table is a route and its cause: the step that gave it its metric.
function tableAfter(table, { routes, gone, event }, step) {
  if (routes.length === 0 && gone.length === 0) return table;
  const after = new Map(table);
  for (const prefix of gone) after.delete(prefix);
  for (const route of routes) {
    const before = table.get(route.prefix), kept = before?.route.metric === route.metric && event?.kind !== 'deliver';
    after.set(route.prefix, { route, cause: kept ? before.cause : step });
  }
  return after;
}

// Lines that cut links and silence routers have no record, and are steps of their own. `down` and `up` have the records of their
// routers. A line that another announces as refused does nothing, and is a step that says so.
const OUTAGES = new Map([['cut', ['link', 'is cut']], ['mend', ['link', 'is mended']],
  ['down', ['link', 'goes down']], ['up', ['link', 'comes up']],
  ['silent', ['router', 'fails']], ['speaks', ['router', 'is up again']]]);
function outagesIn(lines, names) {
  const numbers = new Map([...names].map(([router, name]) => [name, router]));
  return lines.flatMap((text, at) => {
    const [word, what] = text.split(' '), [kind, does] = OUTAGES.get(word) ?? [], said = /^refused (\w+)/.exec(lines[at - 1])?.[1];
    if (said && text && !text.startsWith('#')) return [{ record: 'outage', line: at + 1, thing: null, does: `refused, as announced: ${said}` }];
    if (word === 'asking') return [{ record: 'outage', line: at + 1, thing: null, does: what === 'off' ? 'routers ask no longer' : 'from now on routers that lose a route ask' }];
    const number = kind === 'router' ? numbers.get(what) ?? Number(what) : Number(what);
    return kind ? [{ record: 'outage', line: at + 1, thing: `${kind} ${number}`, does, isOut: /^(cut|silent|down)$/.test(word) }] : [];
  });
}

function withOutages(records, outages) {
  const have = new Set(records.map(({ line }) => line)), end = records.at(-1);
  const last = end?.record === 'refused' ? end.line : Infinity, first = records[0]?.line ?? Infinity;
  const own = outages.filter(({ line }) => line > first && line < last && !have.has(line));
  return [...records, ...own].sort((a, b) => a.line - b.line);
}

function addOutages({ steps }, outages) {
  const waiting = new Map(outages.filter(({ thing }) => thing).map(outage => [outage.line, outage]));
  let out = new Map(), least = new Map();
  for (const step of steps) {
    const { record } = step, { thing, isOut } = record.record === 'refused' ? {} : waiting.get(record.line) ?? {};
    if (thing) waiting.delete(record.line);
    if (thing) out = new Map([...out].filter(([other]) => other !== thing));
    if (thing && isOut) out.set(thing, record.line);
    if (thing || ['cost', 'gain', 'drop'].includes(record.event?.kind)) least = new Map();
    Object.assign(step, { out, least });
  }
}

export const routeAt = ({ routers }, router, prefix) => routers[router].table.get(prefix)?.route;
export const otherEnds = (trace, end) => trace.links.get(end.link).filter(other => other !== end);
export const hasCome = ({ arrivals }, end, by) => arrivals.some(({ end: to, step }) => step <= by && to === end);
// What was sent at an end, is not lost, and has not come to all others of its link, the newest first.
export const onTheirWay = ({ sent }, step) =>
  sent.filter(({ sentAt, doneAt, lostAt }) => sentAt <= step && step < Math.min(doneAt, lostAt)).reverse();

// What a text names: `router R`, `iface R I`, `datagram N`, `route R PREFIX`, or packets of a router for an address or a
// prefix, `packet R TARGET`; null where there is no such thing.
export function named(text, { ends, datagrams }) {
  const [kind, ...words] = (text ?? '').split(' ');
  const [first, second] = words.map(word => /^(0|[1-9]\d{0,8})$/.test(word) ? Number(word) : -1);
  if (kind === 'datagram') return datagrams[first] ? { kind, number: first } : null;
  if (!ends[first]) return null;
  if (kind === 'router') return { kind, router: first };
  if (kind === 'iface') return ends[first][second] ? { kind, router: first, iface: second } : null;
  if (kind === 'packet') return targetIn(words[1] ?? '') === words[1] ? { kind, router: first, target: words[1] } : null;
  return kind === 'route' && /^[0-9a-f:]+\/\d+$/.test(words[1]) ? { kind, router: first, prefix: words[1] } : null;
}

// The prefix whose metrics stand at the routers: that of the route that was chosen, or that packets take; else the first
// that was owned.
export function prefixInView({ trace, step, chosen }) {
  const { kind, router, target, prefix } = named(chosen, trace) ?? {};
  const taken = kind === 'packet' ? routeFor(trace.steps[step].routers[router].table, target)?.prefix : prefix;
  return taken ?? trace.steps[0]?.routers.flatMap(({ prefixes }) => prefixes)[0]?.prefix;
}

// The step to go to from another, forth (1) or back (-1): by events, or to the end of a line, of a change of a route, or
// of what a remark is about, where `captions` are those of lines. It is the last or the first where there is none.
export function nextStop({ steps }, captions, from, by, direction) {
  const lineOf = step => steps[step]?.record.line;
  const isStop = {
    line: step => lineOf(step) !== lineOf(step + 1),
    change: step => steps[step].record.changes?.length > 0,
    remark: step => captions[lineOf(step)] !== captions[lineOf(step + 1)],
  }[by] ?? (() => true);
  let step = from + direction;
  while (steps[step] && !isStop(step)) step += direction;
  return Math.max(0, Math.min(steps.length - 1, step));
}

// The first step of each full minute, where marks stand beside the slider; of a long run fewer of them.
const MOST_MARKS = 20;
export function minutesOf({ steps }) {
  const whole = Math.floor((steps.at(-1)?.now ?? 0) / 60000), every = Math.ceil(whole / MOST_MARKS) || 1, marks = [];
  let next = every;
  steps.forEach(({ now }, step) => {
    if (now < 60000 * next) return;
    const minute = Math.floor(now / 60000);
    marks.push({ step, minute });
    next = minute - minute % every + every;
  });
  return marks;
}
