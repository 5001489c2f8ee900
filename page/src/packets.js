// Where packets go: by the tables of a step, hop by hop; and where they are lost that tables do not know of.
import { UNREACHABLE, covers } from './datagrams.js';

// What a text asks for: an address or a prefix in small letters; null where it is neither.
export function targetIn(text) {
  const words = text.trim().toLowerCase(), [address, length, ...rest] = words.split('/');
  const [before, after, ...more] = address.split('::').map(part => part.split(':'));
  const groups = [...before, ...after ?? []].filter(Boolean), isWhole = after === undefined;
  const isAddress = more.length + rest.length === 0 && groups.every(group => /^[0-9a-f]{1,4}$/.test(group))
    && (isWhole ? groups.length === 8 && before.length === 8 : groups.length < 8) && !/^:[^:]|[^:]:$|:::/.test(address);
  return isAddress && (length === undefined || /^\d{1,3}$/.test(length) && Number(length) <= 128) ? words : null;
}

// The route that packets for an address take, or for those addresses of a prefix that no longer one has: of the routes that
// are not unreachable, that with the longest prefix. A table never changes, so what it answers is kept with it.
const answers = new WeakMap();
export function routeFor(table, target) {
  if (!answers.has(table)) answers.set(table, new Map());
  const kept = answers.get(table);
  if (!kept.has(target)) kept.set(target, longestFor(table, target));
  return kept.get(target);
}

function longestFor(table, target) {
  const wanted = target.includes('/') ? target : `${target}/128`, lengthOf = ({ prefix }) => Number(prefix.split('/')[1]);
  return [...table.values()].map(({ route }) => route)
    .filter(route => route.metric < UNREACHABLE && covers(route.prefix, wanted))
    .reduce((best, route) => best && lengthOf(best) >= lengthOf(route) ? best : route, null);
}

// The way of packets from a router, by the tables: the routers that they come to, and the hops between them, each with its
// route, the end by which they leave and that at which they come in. It ends `delivered` at an owner, with `noRoute`, where
// the next hop, an address, is `nobodys`, or where they come back: `loops`, from the hop of that number on. `lost` is what the
// tables do not know: the first link on the way that is cut or router that is down, with the hop to it; null without one.
export function pathOf(trace, { routers, out }, router, target) {
  const way = [router], hops = [];
  const ended = (end, more) => ({ way, hops, end, ...more, lost: lossOn(out, way, hops) });
  for (;;) {
    const at = way.at(-1), route = routeFor(routers[at].table, target), to = route?.gateway && nextHop(trace, at, route);
    if (!route) return ended('noRoute');
    if (!to) return ended(route.gateway ? 'nobodys' : 'delivered', { nobodys: route.gateway?.next_hop });
    const loops = way.indexOf(to.router);
    way.push(to.router);
    hops.push({ route, from: trace.ends[at][route.gateway.iface], to });
    if (loops >= 0) return ended('loops', { loops });
  }
}

// The end of another router of the link that has the address of a route's next hop.
function nextHop(trace, router, { gateway: { iface, next_hop: address } }) {
  return trace.links.get(trace.ends[router][iface].link).find(end => end.addr === address && end.router !== router);
}

function lossOn(out, [first], hops) {
  if (out.has(`router ${first}`)) return { thing: `router ${first}`, hop: -1 };
  for (const [hop, { from, to }] of hops.entries()) {
    const thing = [`link ${from.link}`, `router ${to.router}`].find(one => out.has(one));
    if (thing) return { thing, hop };
  }
  return null;
}

// The ways from all routers at once: of each its first hop, if it has one, whether that is of a loop or where packets are
// lost, and what becomes of them: `arrive`, `circle`, `drop` or `lose`.
export function waysOf(trace, state, target) {
  return state.routers.map((_, router) => {
    const { hops: [hop = null], end, loops, lost } = pathOf(trace, state, router, target);
    const fate = lost ? 'lose' : { delivered: 'arrive', loops: 'circle' }[end] ?? 'drop';
    return { router, hop, fate, isLoop: loops === 0, isLost: lost?.hop === 0 };
  });
}
