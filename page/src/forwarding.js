// What is told of where packets go, beside where a metric came from.
import { nameOf, prefixInView } from './trace.js';
import { wayText } from './walks.js';
import { pathOf, waysOf } from './packets.js';
import { isAsked } from './veiling.js';
import { badIf, headsOf } from './tables.js';
import { choices, packetForm } from './acting.js';
import { html } from './markup.js';

// How a way ends by the tables, in words.
export const ENDS = {
  delivered: ({ way, last }) => way.length > 1 ? `delivered: ${last} originates it` : 'delivered: it is here already',
  noRoute: ({ last }) => `dropped: ${last} has no route`,
  nobodys: ({ last, nextHop }) => `dropped: the next hop of ${last}, ${nextHop}, is nobody's on that link`,
  loops: ({ back }) => `a loop from ${back} on: it circles until its hop limit ends`,
};

// By the tables; and where it is lost all the same.
export function packetText(trace, now, router, target) {
  const path = pathOf(trace, now, router, target), { way, end, loops } = path, name = number => nameOf(trace, number);
  const words = { way, last: name(way.at(-1)), nextHop: path.nobodys, back: name(way[loops ?? 0]) };
  return html`<p id="packet" class="${badIf(end !== 'delivered')}">A packet for ${target} from here, by the tables:
    <b>${wayText(trace, way)}</b>, ${path.lost && end === 'delivered' ? `to ${words.last}, which originates it` : ENDS[end](words)}.</p>${lossText(trace, now, path)}`;
}

function lossText(trace, { out }, { lost, hops, end }) {
  if (!lost) return '';
  const { thing, hop } = lost, [kind, number] = thing.split(' '), line = out.get(thing), isLink = kind === 'link';
  const what = isLink ? `link ${number} was cut in line ${line}` : `${nameOf(trace, Number(number))} failed in line ${line}`;
  const where = hop < 0 ? '' : ` on hop ${hop + 1}, ${wayText(trace, [hops[hop].from.router, hops[hop].to.router])}`;
  return html`<p id="lost" class="bad">${end === 'delivered' ? 'But it' : 'It'} is lost${where}: ${what}, and no table knows that.</p>`;
}

// ---- A packet that was asked for ----
export function packetDetail(state, { router, target }) {
  const { trace, step, checks = [] } = state, now = trace.steps[step], name = number => nameOf(trace, number);
  if (checks.some(({ isBlank }) => isBlank)) return html`<h2>Blanks ask for metrics. Fill them in, and the page says where packets go.</h2>`;
  const { hops } = pathOf(trace, now, router, target);
  const hopRow = ({ route: { prefix, metric, gateway }, from, to }, index) => html`<tr><td>${index + 1}</td>
    <td>${name(from.router)} → ${name(to.router)}</td><td>${prefix}</td>
    <td>${isAsked(state, from.router, prefix) ? '?' : metric}</td><td>${gateway.next_hop}</td><td>${from.link}</td></tr>`;
  return html`<h2>Where does a packet from ${name(router)} for ${target} go?</h2>${packetText(trace, now, router, target)}
    ${hops.length === 0 ? '' : html`<table id="hops"><caption>Each hop by the longest prefix</caption>
    ${headsOf(['hop', 'path', 'route to', 'metric', 'next hop', 'link'])}<tbody>${hops.map(hopRow)}</tbody></table>`}
    ${packetForm(state, target)}${choices(html`<button data-act="fromAll"
      aria-pressed="${Boolean(state.isFromAll)}">from every router</button> <button data-act="why" data-key="w">why this metric?</button>`)}${state.isFromAll ? fatesText(trace, now, target) : ''}`;
}

// What is to be said first of a step: what becomes of packets for the prefix in view, from each router that is up, and when a
// route changed last. It is said of the paths and the tables of the trace; while a blank is open nothing is.
const STILL = 30_000;
export function verdictOf(state) {
  const { trace, step, checks = [] } = state, now = trace.steps[step], target = prefixInView(state);
  if (!target || !now.routers || checks.some(({ isBlank }) => isBlank)) return html``;
  const named = routers => routers.map(router => nameOf(trace, router)).join(', ');
  const found = new Map();
  for (const { router, fate } of waysOf(trace, now, target)) {
    if (now.out.has(`router ${router}`)) continue;
    const { lost, way, loops } = pathOf(trace, now, router, target), [kind, number] = lost?.thing.split(' ') ?? [];
    const ring = [...new Set(way.slice(loops))].sort((a, b) => a - b), at = kind === 'router' ? nameOf(trace, Number(number)) : `link ${number}, which is cut`;
    const told = { lose: `are lost at ${at}`, circle: `circle in a loop of ${named(ring)}`, drop: 'are dropped: there is no route', arrive: '' }[fate];
    found.set(told, [...found.get(told) ?? [], router]);
  }
  const sick = [...found].filter(([told]) => told).map(([told, routers]) => [told, named(routers)]), last = trace.steps.slice(0, step + 1).findLast(({ record }) => record.changes?.length > 0);
  const ago = last ? now.now - last.now : null, changes = ago === null ? '' : ago < STILL ? 'Routes still change.' : `No route has changed for ${Math.floor(ago / 1000)} s.`;
  const fate = sick.length === 0 ? html`<b class="good">Packets for ${target} arrive from each router.</b>`
    : html`<b class="bad">Packets for ${target} ${sick.map(([told, routers], index) => html`${index > 0 ? '; ' : ''}from ${routers} ${told}`)}.</b>`;
  return html`${fate} ${changes}`;
}

// What becomes of packets from every router.
const FATES = { arrive: 'arrive', circle: 'circle', drop: 'are dropped', lose: 'are lost on the way' };
function fatesText(trace, now, target) {
  const all = waysOf(trace, now, target), from = fate => all.filter(one => one.fate === fate).map(({ router }) => nameOf(trace, router));
  const told = Object.entries(FATES).map(([fate, words]) => [from(fate), words]).filter(([routers]) => routers.length > 0);
  return html`<p id="fates">Packets for ${target}: ${told.map(([routers, words], index) =>
    html`${index > 0 ? '; ' : ''}from ${routers.join(', ')} they <b>${words}</b>`)}.</p>`;
}
