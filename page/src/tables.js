// The tables of routes, their tally, and the matrix of all metrics.
import { nameOf, named, senderAt } from './trace.js';
import { leastCosts, tallyAll, walkOf } from './walks.js';
import { UNREACHABLE, prefixKey } from './datagrams.js';
import { filterOf } from './filtering.js';
import { isAsked } from './veiling.js';
import { plural, seconds } from './texts.js';
import { choice, classes, html } from './markup.js';

export const badIf = isBad => isBad ? 'bad' : '';
export const headsOf = heads => html`<thead><tr>${heads.map(head => html`<th scope="col">${head}</th>`)}</tr></thead>`;
export const titleOf = (trace, router, quiet) => `${nameOf(trace, router)}${quiet ? ', quiet' : ''}`;

const PROMISES_NOTHING = ' After a forged update, or with a router that is not RIPng, nothing is guaranteed.';
// Whether a forged Response came, or a router had another horizon than RIPng's, up to a step.
export const isLiedTo = (trace, step) =>
  trace.steps.slice(0, step + 1).some(({ record }) => record.event?.kind === 'liar' || record.record === 'horizon');

export function tallyOf({ trace, step, checks = [] }) {
  if (checks.some(({ isBlank }) => isBlank)) return html``;
  const { held, backed, wanted, reached } = tallyAll(trace, trace.steps[step]);
  const shortest = wanted > 0 ? html` <b>${reached} of ${plural(wanted, 'route')}</b>
    ${reached === 1 ? 'is a shortest path' : 'are shortest paths'}.` : '';
  if (held === 0) return html`No router has a route that it can use.${isLiedTo(trace, step) ? PROMISES_NOTHING : ''}`;
  return html`<b class="${badIf(backed < held)}">${backed} of ${plural(held, 'metric')}</b> ${backed === 1 ? 'belongs' : 'belong'}
    to a path that is or was there.${shortest}${isLiedTo(trace, step) ? PROMISES_NOTHING : ''}`;
}

// ---- Tables ----
const drawnTables = new WeakMap();
// So many routes at most have the time that is left, which changes at each step.
const COUNTED_DOWN = 300;

// The table of each router, with what has changed since another step, as far as a filter has it; the same markup as before
// where nothing of it has changed.
export function tablesOf({ trace, step, since = step - 1, chosen, filter = '' }) {
  const state = trace.steps[step], { routers, record, least, now } = state, old = trace.steps[since]?.routers ?? routers;
  const route = named(chosen, trace), count = routers.reduce((sum, { table }) => sum + table.size, 0);
  const clock = count <= COUNTED_DOWN ? now : null, wants = filterOf(trace, filter);
  const shown = routers.flatMap(({ table }, router) => {
    if (!wants.hasRouter(router)) return [];
    const mine = route?.kind === 'route' && route.router === router ? route.prefix : null;
    const moved = record.router === router, before = old[router].table, name = nameOf(trace, router);
    const wanted = [least, before, moved, mine, name, clock, filter], kept = drawnTables.get(table);
    if (kept?.wanted.every((part, index) => part === wanted[index])) return kept.markup;
    const markup = tableOf({ trace, state, step, since, before, moved, mine, clock, wants }, router);
    drawnTables.set(table, { wanted, markup });
    return markup.text ? [markup] : [];
  });
  return shown.length > 0 ? shown : [NONE];
}
const NONE = html`<p class="empty">No router and no prefix is named so.</p>`;

const inOrder = entries => entries.map(entry => [prefixKey(entry.route.prefix), entry])
  .sort(([a], [b]) => a < b ? -1 : 1).map(([, entry]) => entry);
// A long prefix is cut in the middle: prefixes differ at their ends.
const MOST_LETTERS_SHOWN = 20;
export const shortened = prefix => prefix.length <= MOST_LETTERS_SHOWN ? prefix : `${prefix.slice(0, 8)}…${prefix.slice(9 - MOST_LETTERS_SHOWN)}`;
const HEADS = ['prefix', 'metric', 'shortest', 'next hop', 'tag', 'expires'];
function tableOf(context, router) {
  const { trace, state, before, moved, wants } = context, { quiet, table } = state.routers[router], now = moved ? 'now' : '';
  const gone = [...before.values()].filter(({ route }) => !table.has(route.prefix)), title = titleOf(trace, router, quiet);
  const all = [...table.values(), ...gone], rows = inOrder(all.filter(({ route }) => wants.hasPrefix(route.prefix)));
  if (rows.length === 0 && (all.length > 0 || wants.isOfPrefixes)) return html``;
  if (rows.length === 0) return html`<p class="empty ${now}"><b>${title}</b> has no route</p>`;
  return html`<table><caption class="${now}">${title}</caption>${headsOf(HEADS)}
    <tbody>${rows.map(entry => rowOf(context, router, entry))}</tbody></table>`;
}

function rowOf(context, router, entry) {
  const { trace, state, before, mine, clock } = context;
  const { prefix, metric, tag, until, gateway, isVeiled: isOpen } = entry.route, text = `route ${router} ${prefix}`, had = before.get(prefix);
  const gone = !state.routers[router].table.has(prefix), dying = metric >= UNREACHABLE && !isOpen;
  const least = leastCosts(trace, state, prefix)[router], label = `${prefix} at ${nameOf(trace, router)}: ${
    isOpen ? 'a blank asks for it' : `why metric ${metric}?`}`;
  const is = { gone, new: !gone && differs(entry, had), dying, chosen: mine === prefix };
  const was = is.new && had && !isOpen ? metricsBetween(context, router, prefix, metric) : '';
  return html`<tr class="${classes(...Object.keys(is).filter(name => is[name]))}" data-choose="${text}"
    data-router="${router}" data-prefix="${prefix}">
    <td title="${prefix}"><button class="link" ${choice(text, label, mine === prefix && text)}>${shortened(prefix)}</button></td>
    <td class="metric" data-was="${was}">${isOpen ? '?' : metric}${isOpen || walkOf(trace, router, entry).isBacked ? ''
      : html`<b class="bad" title="no path has this cost">!</b>`}</td>
    <td class="faint">${isOpen ? '?' : least < UNREACHABLE ? least : 'none'}</td>
    <td title="${isOpen ? '' : exactly(gateway)}">${isOpen ? '?' : gateway ? wayOf(trace, gateway) : 'own'}</td>
    <td>${tag}</td><td class="${dying ? '' : 'faint'}">${gone || isOpen ? '' : untilText(until, dying, clock)}</td></tr>`;
}

// The metrics that a route had since the step that was shown before, each where it came, but for that of now; the first and the last.
const MOST_BETWEEN = 4;
function metricsBetween({ trace, step, since }, router, prefix, metric) {
  const held = trace.steps.slice(Math.max(0, since), step + 1).map(({ routers }) => routers[router].table.get(prefix)?.route.metric ?? '·');
  const runs = held.filter((one, at) => one !== held[at - 1]).slice(0, held.at(-1) === metric ? -1 : undefined);
  return runs.length > MOST_BETWEEN ? [runs[0], '…', ...runs.slice(1 - MOST_BETWEEN)].join('→') : runs.join('→');
}

// When a route expires, or at infinity is deleted: how long it takes, or where that is too much to keep up, the second. Past that
// it waits for the router's timer, which runs no more where the router is down.
// Seconds with a tenth, where they are not whole.
const shortly = milliseconds => Math.max(0.1, Number((milliseconds / 1000).toFixed(1)));
function untilText(until, dying, clock) {
  if (until === null) return '';
  const title = `${dying ? 'deleted' : 'expires'} at ${until / 1000} s`;
  if (clock !== null && until <= clock) return html`<span title="${title}, by the router's timer">${dying ? 'to be deleted' : 'has run out'}</span>`;
  const when = clock === null ? `at ${shortly(until)} s` : `in ${shortly(until - clock)} s`;
  return html`<span title="${title}">${dying ? 'deleted ' : ''}${when}</span>`;
}

const partsOf = ({ route } = { route: {} }) => JSON.stringify([route.metric, route.tag, route.gateway]);
// What is not told is not seen to change.
export const differs = (entry, before) =>
  entry !== before && !entry?.route.isVeiled && !before?.route.isVeiled && partsOf(entry) !== partsOf(before);
const wayOf = (trace, { iface, from, next_hop }) =>
  `${senderAt(trace, from)}, if ${iface}${next_hop === from ? '' : `, to ${next_hop}`}`;
export const exactly = gateway =>
  gateway ? `via ${gateway.next_hop} iface ${gateway.iface} from ${gateway.from}` : 'own';

// Whether a router's routes, or that to a prefix, are other than at another step.
export function hasChanged({ trace, step, since }, router, prefix) {
  const tableAt = at => trace.steps[at]?.routers[router].table, [now, old] = [tableAt(step), tableAt(since)];
  if (!old || now === old) return false;
  const prefixes = prefix ? [prefix] : [...new Set([...now.keys(), ...old.keys()])];
  return prefixes.some(one => differs(now.get(one), old.get(one)));
}

// The tables as text: as `print` writes them.
const printedRoute = (router, { prefix, metric, tag, gateway }) =>
  `${router} ${prefix} metric ${metric} tag ${tag} ${exactly(gateway)}\n`;
export const printed = ({ routers }) => routers.flatMap(({ table }, router) =>
  inOrder([...table.values()]).filter(({ route }) => !route.isVeiled).map(({ route }) => printedRoute(router, route))).join('');

// What is said of lines of a script: the first, which stays in each language, and how many more.
export function linesTold(told) {
  const [line, more = ''] = told.split(/(?=, and \d+ more$)/);
  return told === 'nothing more' ? html`<span>${told}</span>` : html`<span translate="no">${line}</span><span>${more}</span>`;
}

// What two runs end with, where it is not the same.
export function comparisonOf(one, other, here, there) {
  const ends = [one, other].map(({ steps }) => steps.at(-1)), held = ends.map(({ routers }) => routers.map(({ table }) => table));
  const rows = held[0].flatMap((_, router) => {
    const prefixes = [...new Set(held.flatMap(tables => [...tables[router]?.keys() ?? []]))];
    return prefixes.map(prefix => [router, prefix, ...held.map(tables => tables[router]?.get(prefix)?.route)]);
  }).filter(([, , mine, theirs]) => mine?.metric !== theirs?.metric || exactly(mine?.gateway) !== exactly(theirs?.gateway));
  const told = (trace, route) => !route ? 'no route' : `${route.metric}, ${route.gateway ? wayOf(trace, route.gateway) : 'own'}`;
  return html`<table><thead><tr><th>router</th><th>prefix</th><th>shown: ${linesTold(here)}; ends at ${seconds(ends[0].now)}</th>
    <th>branch: ${linesTold(there)}; ends at ${seconds(ends[1].now)}</th></tr></thead><tbody>${rows.map(([router, prefix, mine, theirs]) =>
    html`<tr><td>${nameOf(one, router)}</td><td>${prefix}</td><td>${told(one, mine)}</td><td>${told(other, theirs)}</td></tr>`)}</tbody></table>
    ${rows.length === 0 ? html`<p>Both end with the same routes.</p>` : ''}`;
}

// ---- The matrix ----
// All metrics, a row for each router and a column for each prefix.
export function matrixOf(view) {
  const { trace, step, chosen, filter } = view, state = trace.steps[step], wants = filterOf(trace, filter);
  const all = new Map(state.routers.flatMap(({ table }) => [...table.values()]).map(entry => [entry.route.prefix, entry]));
  const prefixes = inOrder([...all.values()]).map(({ route }) => route.prefix).filter(wants.hasPrefix);
  const rowFor = ({ table }, router) => html`<tr><th scope="row">${nameOf(trace, router)}</th>${prefixes.map(prefix =>
    cellOf(view, router, prefix, table.get(prefix)?.route.metric, chosen))}</tr>`;
  return html`<table class="matrix"><caption>Metrics, by router and prefix</caption>
    <thead><tr><td></td>${prefixes.map(prefix => html`<th scope="col"><span>${prefix}</span></th>`)}</tr></thead>
    <tbody>${state.routers.map((own, router) => wants.hasRouter(router) ? rowFor(own, router) : '')}</tbody></table>`;
}

function cellOf(view, router, prefix, metric, chosen) {
  const { trace, step } = view, text = `route ${router} ${prefix}`, least = leastCosts(trace, trace.steps[step], prefix)[router];
  const isOpen = isAsked(view, router, prefix);
  const is = classes(hasChanged(view, router, prefix) && 'new', !isOpen && metric >= UNREACHABLE && 'dying', !isOpen && metric > least && 'longer',
    chosen === text && 'chosen');
  const says = isOpen ? 'a blank asks for it' : metric ? `why metric ${metric}?` : 'no route', label = `${prefix} at ${nameOf(trace, router)}: ${says}`;
  return html`<td class="${is}"><button class="link" title="${label}" ${choice(text, label, chosen)}>${isOpen ? '?' : metric ?? '·'}</button></td>`;
}
