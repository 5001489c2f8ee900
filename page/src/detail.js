// What is told beside the drawing: events, what happened at a step, and why a metric is what it is.
import { nameOf, named } from './trace.js';
import { UNREACHABLE } from './datagrams.js';
import { leastCosts, offersOf, updatesOf, walkOf, wayText, withoutRings } from './walks.js';
import { LINES, describe, hintOf, whyAsks, plural, refusals, seconds } from './texts.js';
import { badIf, headsOf, isLiedTo } from './tables.js';
import { ACTIONS, actsHere } from './acting.js';
import { packetDetail, packetText } from './forwarding.js';
import { isAsked } from './veiling.js';
import { plotOf } from './plot.js';
import { choice, classes, html } from './markup.js';

// ---- Events, and the card of lines ----
export const eventOf = ({ record, earlier }, step, names, isOpen) => html`<li>
  <button ${choice(`step ${step}`, `line ${record.line}, ${describe(record, names, isOpen)}`)}><span>${record.line}</span>
    <span><span class="${badIf(record.record === 'refused')}">${describe(record, names, isOpen)}</span>
    ${earlier ? html`<br><span class="bad">${earlier}</span>` : ''}
    ${refusals(record).map(text => html`<br><span class="bad">${text}</span>`)}
  </span></button></li>`;

export const cardOf = () => LINES.map(([form, meaning]) => html`<dt><code>${form}</code></dt><dd>${meaning}</dd>`);

// Of which prefixes of the router of a step a blank asks for the metric.
export const openAt = (view, step) => prefix => isAsked(view, view.trace.steps[step].record.router, prefix, step);

// ---- What happened, and what was chosen ----
const stepLink = ({ steps }, step) =>
  html`<button class="link" data-choose="step ${step}">line ${steps[step].record.line}</button>`;

// Lines that are printed have the numbers of routers; here stand their names.
const IS_ROUTER = { print: at => at === 0, horizon: at => at === 0, sent: (at, words) => words[at - 1] === 'router', path: (at, words) => words[at - 1] !== 'link' };
const withNames = (trace, { record, prints }) => prints.map(line => line.split(' ').map((word, at, words) =>
  /^\d+:?$/.test(word) && IS_ROUTER[record]?.(at, words) ? word.replace(/\d+/, router => nameOf(trace, Number(router))) : word).join(' '));

export function detailOf(state) {
  const { trace, step, chosen, wiring } = state, { record, earlier } = trace.steps[step] ?? {};
  const thing = wiring && named(chosen, trace), badness = badIf(record?.record === 'refused');
  if (!record) return html`<p class="faint">Nothing has happened.</p>`;
  const at = record.event ? ` at ${seconds(record.now)}` : '';
  return html`<p class="${badness} happened"><b>Line ${record.line}: ${describe(record, trace.names, openAt(state, step))}${hintOf(record)}</b>${at}</p>
    ${earlier ? html`<p class="bad">Time goes back: ${earlier}.</p>` : ''}
    ${refusals(record).map(text => html`<p class="bad">${text}</p>`)}
    ${record.prints ? html`<pre>${withNames(trace, record).join('\n')}</pre>` : ''}
    ${thing ? html`<div id="thing">${(DETAILS[thing.kind] ?? ACTIONS[thing.kind])(state, thing)}</div>`
    : html`${questionsText(state)}${offersText(state)}${updatesText(state)}${actsHere(state)}`}`;
}

// Why what is sent or comes at a step was asked, or what it answers.
function questionsText(view) {
  const { trace, step } = view, { record: { router, event, asks, sent } } = trace.steps[step], { datagram } = event ?? {};
  const name = number => nameOf(trace, number), come = trace.datagrams[datagram], isOpen = who => prefix => isAsked(view, who, prefix);
  const link = number => html`<button class="link" data-choose="datagram ${number}">${number}</button>`;
  if (asks) return html`<p class="question">Why ${name(router)} asks: ${whyAsks(asks, isOpen(router))}. No link came up.</p>`;
  if (come?.asks) return html`<p class="question">Datagram ${link(datagram)} is a question of ${name(come.router)}: ${
    whyAsks(come.asks, isOpen(come.router))}.${sent.length > 0 ? ` ${name(router)} answers with its table.` : ''}</p>`;
  return come && come.answers !== null ? html`<p class="question">It is the answer to ${name(router)}'s datagram ${link(come.answers)}.</p>` : '';
}

function offersText(view) {
  const { trace, step } = view, { record: { event, router } } = trace.steps[step];
  const offers = event ? offersOf(trace, step) : [];
  const rowOfOffer = ({ prefix, told, cost, offered, before = 'none', after = 'none', outcome }) => html`<tr>
    <td>${prefix}</td><td>${told}</td>
    <td>${told >= UNREACHABLE ? 'none: unreachable' : told + cost > offered ? `${told} + ${cost} is past 15: ${offered}` : `${told} + ${cost} = ${offered}`}</td>
    <td>${before}</td><td>${after}</td><td>${outcome}</td></tr>`;
  return offers.length === 0 ? '' : html`<table id="offers"><caption>How ${nameOf(trace, router)} processes it</caption>
    ${headsOf(['prefix', 'advertised', 'plus link cost', 'old metric', 'new metric', 'outcome'])}
    <tbody>${offers.map(rowOfOffer)}</tbody></table>`;
}

// What a step sent: each prefix on each link, with the poison.
const MOST_ENTRIES = 8;
function updatesText(view) {
  const { trace, step } = view, { record: { router, update, asks }, routers } = trace.steps[step], updates = updatesOf(trace, step);
  if (update === 'held') {
    return html`<p>It has changes to advertise, but its triggered updates are delayed until
      ${seconds(routers[router].timers.hold)}.</p>`;
  }
  const entryText = ({ prefix, metric, isPoisoned }) => html`<span class="${classes(isPoisoned && 'poisoned')}">${prefix} at
    ${isAsked(view, router, prefix) ? '?' : metric || '?'}${isPoisoned ? ' (poisoned reverse)' : ''}</span>`;
  const listOf = ({ isRequest, entries }) => {
    if (isRequest) return `a Request for all routes${asks ? `: ${whyAsks(asks, prefix => isAsked(view, router, prefix))}` : ''}`;
    const more = entries.length > MOST_ENTRIES ? `, and ${entries.length - MOST_ENTRIES} more` : '';
    return html`${entries.slice(0, MOST_ENTRIES).map((entry, index) => html`${index > 0 ? ', ' : ''}${entryText(entry)}`)}${more}`;
  };
  const rows = updates.slice(0, 40).map(one => html`<tr><td>${one.peer ? one.peer.addr : `link ${one.link}`}</td>
    <td><button class="link" data-choose="datagram ${one.datagram}">${one.datagram}</button></td><td>${listOf(one)}</td></tr>`);
  return rows.length === 0 ? '' : html`<table id="updates"><caption>What was sent</caption>
    ${headsOf(['to', 'datagram', 'what it advertises'])}<tbody>${rows}</tbody></table>`;
}

// ---- Why this metric? ----
function routeDetail(state, { router, prefix }) {
  if (isAsked(state, router, prefix)) return state.isQuiz ? html`<h2>This is what the quiz asks.</h2>` : html`<h2>A blank asks for this metric, or for one that it comes from. Fill it in, and the page says why.</h2>`;
  const { trace, step } = state, now = trace.steps[step], entry = now.routers[router].table.get(prefix);
  const cost = leastCosts(trace, now, prefix)[router], name = nameOf(trace, router);
  const least = html`<p>${cost < UNREACHABLE ? `The shortest path, as the network is now, costs ${cost}.`
    : 'No path leads to a router with that prefix now.'}</p>`, plot = plotOf(state, router, prefix);
  const packet = state.checks?.some(({ isBlank }) => isBlank) ? '' : html`<h3 class="of-packet">Where a packet goes</h3>${packetText(trace, now, router, prefix)}
    <p><button data-choose="packet ${router} ${prefix}" data-key="g">hop by hop, or to another address</button></p>`;
  if (!entry) return html`<h2>${name} has no route to ${prefix}.</h2>${plot}${packet}${least}`;
  const { metric } = entry.route, came = html`<h3 class="of-walk">Where this number came from</h3>`;
  return metric < UNREACHABLE
    ? html`<h2>Why has ${name} metric ${metric} for ${prefix}?</h2>${came}${walkText(trace, step, router, entry)}${plot}${packet}${least}`
    : html`<h2>Why is ${prefix} unreachable for ${name}?</h2>${came}${whyUnreachable(trace, entry)}${plot}${packet}${least}`;
}

function walkText(trace, step, router, entry) {
  if (!entry.route.gateway) return html`<p>It originates the prefix; an owner's metric is 1.</p>`;
  const walk = walkOf(trace, router, entry), name = number => nameOf(trace, number);
  const hopRow = ({ end, cost, held, datagram, cameAt }, index) => html`<tr><td>${index + 1}</td>
    <td>${name(end.router)} → ${name(datagram.router)}</td><td>${cost}</td><td>${name(datagram.router)}, whose metric was ${held}</td>
    <td>${datagram.datagram}</td><td>${stepLink(trace, datagram.sentAt)}</td><td>${stepLink(trace, cameAt)}</td></tr>`;
  return html`${sumText(trace, trace.steps[step].routers, walk, entry.route, isLiedTo(trace, step))}
    ${outagesText(trace, trace.steps[step], walk, entry.route.prefix)}
    ${walk.hops.length === 0 ? '' : html`<table id="walk">${headsOf(['hop', 'from and to', 'cost', 'advertised by', 'in datagram', 'sent', 'received'])}
    <tbody>${walk.hops.map(hopRow)}</tbody></table>`}`;
}

// The walk as a sum, with the rings that it goes around.
function sumText(trace, routers, { hops, owner, sum }, { metric, prefix }, isLied) {
  if (owner === null && isLied) return html`<p class="bad">It comes from a forged update or a router that is not RIPng; there is no such walk.</p>`;
  if (owner === null) return html`<p class="bad">No walk to an owner is found in the trace.</p>`;
  const { way, rings } = withoutRings(trace, [...hops.map(hop => hop.end.router), owner]);
  const past = routers[owner].prefixes.some(own => own.prefix === prefix) ? '' : `; ${nameOf(trace, owner)} originated the prefix then`;
  const around = [...rings].map(([ring, times]) => {
    const hops = plural(times * (ring.split('→').length - 1), 'hop'), often = times > 1 ? `(${times} times) ` : '';
    return `${hops} ${often}around the ring ${ring}, and `;
  });
  const terms = [1, ...hops.map(hop => hop.cost).reverse()].join(' + '), not = sum === metric ? '' : `, not ${metric}`;
  return html`<p id="sum"><b class="${badIf(not)}">${terms} = ${sum}${not}</b>: 1 at the owner, and the cost of each
    hop. ${around}${plural(way.length - 1, 'hop')} to the owner, ${wayText(trace, way)}${past}.</p>`;
}

// Hops over what is out now, and how long their routers will not notice.
function outagesText(trace, { out, routers, now }, { hops }, prefix) {
  const [found] = hops.flatMap(({ end, datagram }) => {
    const things = [[`link ${end.link}`, `link ${end.link}, which was cut`],
      [`router ${datagram.router}`, `${nameOf(trace, datagram.router)}, which failed`]];
    return things.filter(([thing]) => out.has(thing)).map(([thing, text]) => ({ end, text, line: out.get(thing) }));
  });
  if (!found) return '';
  const { end, text, line } = found, route = routers[end.router].table.get(prefix)?.route, name = nameOf(trace, end.router);
  const isUsed = route?.metric < UNREACHABLE && route.gateway?.iface === end.iface && route.until !== null;
  const left = isUsed && Math.ceil((route.until - now) / 1000), when = out.has(`router ${end.router}`) ? ` ${name} is down itself.`
    : !isUsed ? ` ${name} has noticed.` : left <= 0 ? ` ${name} notices when its timer runs.`
    : ` ${name} notices at ${route.until / 1000} s, in ${left} s, unless it learns another route before.`;
  return html`<p id="outage" class="bad">This walk goes over ${text} in line ${line}.${when}</p>`;
}

function whyUnreachable(trace, { cause, route }) {
  const { event } = trace.steps[cause].record, why = {
    tick: 'it timed out: nothing was received of it for 180 s', drop: 'its owner has withdrawn it',
    deliver: `datagram ${event?.datagram} offered 16 or more`, stranger: 'an outside host offered 16 or more',
    liar: `${event?.sender ? nameOf(trace, event.sender.router) : 'a forged Response'} offered 16 or more`,
  }[event?.kind] ?? 'this event made it so';
  return html`<p>Since ${stepLink(trace, cause)}: ${why}. It is advertised at 16 (route poisoning) until it is deleted, at
    ${seconds(route.until)}.</p>`;
}

const DETAILS = { route: routeDetail, packet: packetDetail };
