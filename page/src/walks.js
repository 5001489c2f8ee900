// Why a metric is what it is: walks, least costs, and what a datagram offered.
import { nameOf, routeAt } from './trace.js';
import { UNREACHABLE, entriesOf } from './datagrams.js';

const walks = new WeakMap();

// The walk that backs a route. It never changes, so it is kept with the route's entry.
export function walkOf(trace, router, entry) {
  if (!walks.has(entry)) walks.set(entry, walkBack(trace, router, entry));
  return walks.get(entry);
}

// Found backwards in time: the datagram that brought the route, what its sender held when it told it, and so on to the
// owner. Each hop costs what the interface that heard of it cost then. A metric is backed where its walk ends at an
// owner and costs just that; 16 says that there is none.
function walkBack(trace, router, entry) {
  const { metric, prefix } = entry.route, hops = [], isUsable = () => entry?.route.metric < UNREACHABLE;
  const wasHeard = () => entry.route.gateway && trace.steps[entry.cause].record.event?.kind === 'deliver';
  while (isUsable() && wasHeard()) {
    const { record: { event }, routers } = trace.steps[entry.cause], datagram = trace.datagrams[event.datagram];
    const told = trace.steps[datagram.sentAt].routers[datagram.router].table.get(prefix), held = told?.route.metric;
    const { cost } = routers[router].interfaces[event.iface], end = trace.ends[router][event.iface];
    hops.push({ end, datagram, cost, held, cameAt: entry.cause });
    [router, entry] = [datagram.router, told];
  }
  const sum = hops.reduce((total, hop) => total + hop.cost, 1), isOwner = isUsable() && !entry.route.gateway;
  return { hops, sum, owner: isOwner ? router : null, isBacked: metric >= UNREACHABLE || isOwner && sum === metric };
}

// The least cost of all walks from each router to an owner of the prefix, at the costs and owners of a step, over links
// that are not cut and routers that speak.
export function leastCosts({ links }, { routers, out, least }, prefix) {
  if (!least.has(prefix)) {
    const speaking = ends => ends.filter(({ router }) => !out.has(`router ${router}`));
    const used = [...links].flatMap(([link, ends]) => out.has(`link ${link}`) ? [] : [speaking(ends)]);
    least.set(prefix, costsTo(used, routers, prefix));
  }
  return least.get(prefix);
}

// 15 hops cost 16 or more, so that many rounds are enough.
function costsTo(links, routers, prefix) {
  const least = routers.map(({ prefixes }) => prefixes.some(own => own.prefix === prefix) ? 1 : UNREACHABLE);
  const hear = ends => {
    const nearest = Math.min(...ends.map(end => least[end.router]));
    for (const { router, iface } of ends) {
      least[router] = Math.min(least[router], nearest + routers[router].interfaces[iface].cost);
    }
  };
  for (let hops = 1; hops < UNREACHABLE; hops++) links.forEach(hear);
  return least;
}

// A list of routers without its rings: the way that is left, and each ring with how often it is gone around.
export function withoutRings(trace, routers) {
  const way = [], rings = new Map();
  for (const router of routers) {
    const ring = way.includes(router) ? wayText(trace, [...way.splice(way.indexOf(router)), router]) : null;
    if (ring) rings.set(ring, (rings.get(ring) ?? 0) + 1);
    way.push(router);
  }
  return { way, rings };
}

export const wayText = (trace, routers) => routers.map(router => nameOf(trace, router)).join(' → ');

// What each row of the table of adoption makes of an offer, in words.
export const OUTCOMES = {
  Nothing: 'unreachable: ignored', Added: 'new prefix: installed', Owned: 'its own prefix: ignored',
  GivenUp: 'withdrawn by its next hop: unreachable', Refreshed: 'from its next hop: timer restarted',
  Cheaper: 'lower cost: installed', Older: 'equal cost, and half of the timeout has passed: installed',
  Dearer: 'higher cost: ignored', Young: 'equal cost, and half of the timeout has not passed: ignored',
  Revived: 'was unreachable: installed', Gone: 'already unreachable', Hidden: '?',
};

// A next hop is believed whatever it offers, also what is worse than before: that makes counting possible.
function outcomeOf(why, metric, before) {
  if (metric >= UNREACHABLE && why === 'Dearer') return OUTCOMES.Nothing;
  return why === 'Refreshed' && metric > before ? 'from its next hop: believed though worse' : OUTCOMES[why];
}

// What a router makes of each offer of a Response that came at a step: what it held, what was offered, what it holds.
export function offersOf({ steps, datagrams }, step) {
  const { record: { event, router, offers }, routers } = steps[step];
  if (offers.length === 0) return [];
  const entries = entriesOf(datagrams[event.datagram].bytes), { cost } = routers[router].interfaces[event.iface];
  return offers.map(({ entry, prefix, metric, why }) => ({
    prefix, told: entries[entry].metric || '?', cost, offered: metric,
    outcome: outcomeOf(why, metric, routeAt(steps[step - 1], router, prefix)?.metric),
    before: routeAt(steps[step - 1], router, prefix)?.metric, after: routeAt(steps[step], router, prefix)?.metric,
  }));
}

// What a step sent, each datagram with its link and its entries; one at infinity for a route that can be used is poisoned.
export function updatesOf({ steps, ends }, step) {
  const { record, routers } = steps[step];
  return (record.sent ?? []).map(({ datagram, router, iface, peer, bytes }) => {
    const metricOf = prefix => routers[router].table.get(prefix)?.route.metric;
    const entries = entriesOf(bytes).map(entry =>
      ({ ...entry, isPoisoned: entry.metric === UNREACHABLE && metricOf(entry.prefix) < UNREACHABLE }));
    return { datagram, link: ends[router][iface].link, peer, isRequest: bytes.startsWith('01'), entries };
  });
}

// A route's metric and its least cost, from each step on at which one of them changes.
export function metricRuns(trace, router, prefix) {
  const runs = [];
  trace.steps.forEach((state, step) => {
    const metric = routeAt(state, router, prefix)?.metric, least = leastCosts(trace, state, prefix)[router];
    if (runs.at(-1)?.metric !== metric || runs.at(-1)?.least !== least) runs.push({ step, metric, least });
  });
  return runs;
}

const tallies = new WeakMap();

// How many metrics of a router are the cost of a walk, and how many routes to what is owned have the least cost; kept
// with its table.
function routerTally(trace, state, router, owned) {
  const { table } = state.routers[router], kept = tallies.get(table), { least } = state;
  if (kept?.least === least) return kept;
  const held = [...table.values()].filter(({ route }) => route.metric < UNREACHABLE);
  const backed = held.filter(entry => walkOf(trace, router, entry).isBacked);
  const costOf = prefix => leastCosts(trace, state, prefix)[router];
  const wanted = owned.filter(prefix => costOf(prefix) < UNREACHABLE);
  const reached = wanted.filter(prefix => table.get(prefix)?.route.metric === costOf(prefix));
  const tally = { held: held.length, backed: backed.length, wanted: wanted.length, reached: reached.length };
  tallies.set(table, { least, ...tally });
  return tally;
}

// The same of all routers, at a step.
export function tallyAll(trace, state) {
  const owned = [...new Set(state.routers.flatMap(({ prefixes }) => prefixes.map(({ prefix }) => prefix)))];
  const all = state.routers.map((_, router) => routerTally(trace, state, router, owned));
  const sum = name => all.reduce((total, one) => total + one[name], 0);
  return { held: sum('held'), backed: sum('backed'), wanted: sum('wanted'), reached: sum('reached') };
}
