// The time diagram: routers as upright lines, datagrams as arrows from line to line, a row for each step, and the step as cursor.
import { nameOf, prefixInView, routeAt } from './trace.js';
import { UNREACHABLE, entriesOf } from './datagrams.js';
import { isAskedInVain } from './losses.js';
import { describe } from './texts.js';
import { openAt } from './detail.js';
import { isHushed } from './veiling.js';
import { choice, classes, html } from './markup.js';

// In pixels: a row, what is left free for times and names, and how far apart lines stand so that numbers find room between them.
const ROW = 17, EDGE = { left: 62, right: 16, top: 30, aslant: 62, bottom: 6 }, ROOMY_COLUMN = 44;
// More routers have no room beside each other.
export const MOST_LINES_OF_TIME = 64;

// The rows in sight: the page of steps with this one, and half a page before and behind. It stays while one steps within it.
export function windowOf(count, step, rows) {
  const page = Math.max(1, Math.floor(rows / 2)), from = Math.floor(step / page) * page - Math.floor(page / 2);
  return { from: Math.max(0, Math.min(from, count - rows)), rows };
}

// The diagram as the contents of a pane, so many pixels wide and high.
export function timelineOf(view, { width, height }) {
  const { trace, step } = view, count = trace.ends.length;
  if (count > MOST_LINES_OF_TIME) return html`<p class="faint">The time diagram has room for ${MOST_LINES_OF_TIME} routers.</p>`;
  const column = (width - EDGE.left - EDGE.right) / count, isLong = router => 7 * nameOf(trace, router).length > column - 4;
  const top = trace.ends.some((_, router) => isLong(router)) ? EDGE.aslant : EDGE.top;
  const rows = Math.max(4, Math.floor((height - top - EDGE.bottom) / ROW)), { from } = windowOf(trace.steps.length, step, rows);
  const scene = { ...view, top, isLong, prefix: prefixInView(view), from, to: Math.min(trace.steps.length, from + rows) - 1, width, roomy: column >= ROOMY_COLUMN,
    x: router => Math.round(EDGE.left + (router + 0.5) * column), y: at => top + (at - from + 0.5) * ROW, isTold: !isHushed(view) };
  return html`<svg id="times" role="group" aria-label="time diagram" width="${width}" height="${height}" viewBox="0 0 ${width} ${height}">
    ${drawCursor(scene)}${trace.ends.map((_, router) => drawLine(scene, router))}
    <svg y="${top}" width="${width}" height="${rows * ROW}" viewBox="0 ${top} ${width} ${rows * ROW}">${arrowsOf(scene)}</svg>${stepsIn(scene).map(at => drawRow(scene, at))}</svg>`;
}
const stepsIn = ({ from, to }) => Array.from({ length: to - from + 1 }, (_, row) => from + row);

const drawCursor = ({ step, y, width }) =>
  html`<rect class="cursor" x="0" y="${y(step) - ROW / 2}" width="${width}" height="${ROW}"/>`;

// A router's line, broken while the router is down, with its name on top: aslant where lines stand close.
function drawLine(scene, router) {
  const { trace, x, y, from, to, top } = scene, at = x(router), isAslant = scene.isLong(router), turn = `rotate(-50 ${at} ${top - 14})`;
  const down = stepsIn(scene).filter(step => trace.steps[step].out.has(`router ${router}`));
  return html`<path class="life" d="M${at} ${top}V${y(to) + ROW / 2}"/>${down.map(step =>
    html`<path class="life down" d="M${at} ${y(step) - ROW / 2}v${ROW}"/>`)}
    <text class="${classes('name', isAslant && 'aslant')}" x="${at}" y="${top - 14}" ${isAslant ? html`transform="${turn}"` : ''}>${nameOf(trace, router)}</text>
    ${scene.prefix && scene.isTold && from > 0 ? drawMetricAt(scene, router, from - 1, y(from) - ROW / 2) : ''}`;
}

// What a router holds from a step on, beside its line.
function drawMetricAt({ trace, prefix, x, roomy, step }, router, at, y) {
  const metric = routeAt(trace.steps[at], router, prefix)?.metric;
  return !roomy || !metric ? '' : html`<text class="${classes('held', metric >= UNREACHABLE && 'unreachable', at > step && 'later')}" x="${x(router) + 9}" y="${y}">${metric}</text>`;
}

// A step: the time where it passes, a dot where a router acts, and its metric where that changed. A line that is no event of one
// router is told in words.
function drawRow(scene, at) {
  const { trace, x, y, step, prefix, isTold } = scene, { record, routers } = trace.steps[at], { router, event, line } = record;
  const time = momentOf(trace, at), says = describe(record, trace.names, openAt(scene, at)), isPast = at <= step;
  const before = trace.steps[at - 1]?.routers, hasNew = prefix && isTold && router !== undefined && before && routers !== before
    && routeAt(trace.steps[at], router, prefix)?.metric !== routeAt(trace.steps[at - 1], router, prefix)?.metric;
  const told = event || record.record === 'start' ? '' : html`<text class="note" x="${EDGE.left}" y="${y(at)}">${says}</text>`;
  return html`<g class="${classes('moment', !isPast && 'later', event?.kind)}" ${choice(`step ${at}`, `line ${line}, ${says}`)}>
    <rect class="target" x="0" y="${y(at) - ROW / 2}" width="${EDGE.left - 8}" height="${ROW}"/>
    ${time === momentOf(trace, at - 1) ? '' : html`<text class="time" x="${EDGE.left - 12}" y="${y(at)}">${time}</text>`}
    ${event ? html`<circle cx="${x(router)}" cy="${y(at)}" r="${event.kind === 'tick' ? 3.5 : 2.5}"/>` : ''}${told}<title>${says}</title></g>
    ${hasNew ? drawMetricAt(scene, router, at, y(at)) : ''}`;
}
const momentOf = ({ steps }, at) => steps[at] ? `${Number((steps[at].now / 1000).toFixed(3))} s` : '';

// ---- Arrows ----
function arrowsOf(scene) {
  const { trace, from, to } = scene, isIn = (sent, come) => come >= from && sent <= to;
  const come = trace.datagrams.flatMap(datagram => datagram.arrivals.filter(({ step }) => isIn(datagram.sentAt, step))
    .map(({ end, step }) => drawArrow(scene, datagram, end.router, step)));
  const lost = trace.datagrams.filter(one => one.lostAt < Infinity && isIn(one.sentAt, one.sentAt) && !isAskedInVain(one)).flatMap(one => missedBy(trace, one)
    .map(end => drawLostArrow(scene, one, end.router)));
  return [...lost, ...come, ...stepsIn(scene).flatMap(at => isForeign(trace.steps[at].record) ? [drawForeign(scene, at)] : [])];
}
const missedBy = (trace, { end, arrivals }) => trace.links.get(end.link).filter(other => other !== end && !arrivals.some(arrival => arrival.end === other));
// Whether what comes at a record was sent by a host that is no router of the network.
export const isForeign = ({ event }) => /^(stranger|liar)$/.test(event?.kind) && event.datagram === undefined;

// The metric that bytes tell of a prefix.
export const toldIn = (bytes, prefix) => bytes?.startsWith('02') ? entriesOf(bytes).find(entry => entry.prefix === prefix)?.metric : undefined;

function drawArrow(scene, { datagram, router, sentAt, bytes, came = bytes, asks }, to, at) {
  const { trace, x, y, step, prefix, isTold } = scene, told = isTold ? toldIn(came, prefix) : undefined, { fault, line } = trace.steps[at].record;
  const label = `datagram ${datagram} of ${nameOf(trace, router)} comes to ${nameOf(trace, to)}, line ${line}${told ? `, metric ${told}` : ''}`;
  const names = classes(at > step && 'later', at === step && 'now', fault && 'refused', told >= UNREACHABLE && 'unreachable', (asks || bytes.startsWith('01')) && 'asks');
  return arrow(scene, { from: [x(router), y(sentAt)], to: [x(to), y(at)], names, label, told, goTo: at });
}

// One that is lost stops before it comes to anybody.
function drawLostArrow(scene, { datagram, router, sentAt, lostAt }, to) {
  const { trace, x, y, step } = scene, names = classes('lost', lostAt > step && 'later'), across = (x(to) - x(router)) * 0.4;
  const label = `datagram ${datagram} of ${nameOf(trace, router)} to ${nameOf(trace, to)} is lost`;
  return arrow(scene, { from: [x(router), y(sentAt)], to: [x(router) + across, y(sentAt) + 0.9 * ROW], names, label, goTo: sentAt, isLost: true });
}

// What an outside host sends comes from the rim.
function drawForeign(scene, at) {
  const { trace, x, y, step, prefix, isTold } = scene, { router, event, fault } = trace.steps[at].record;
  const label = `${event.source}, which is no router, sends to ${nameOf(trace, router)}`, names = classes('foreign', fault && 'refused', at > step && 'later', at === step && 'now');
  return arrow(scene, { from: [EDGE.left - 8, y(at) - 0.4 * ROW], to: [x(router), y(at)], names, label, told: isTold ? toldIn(event.bytes, prefix) : undefined, goTo: at });
}

function arrow({ roomy }, { from: [fromX, fromY], to: [toX, toY], names, label, told, goTo, isLost = false }) {
  const way = Math.sign(toX - fromX) || 1, line = `M${fromX} ${fromY}L${toX - (isLost ? 0 : 4 * way)} ${toY}`, at = 0.72;
  const end = isLost ? html`<path class="cross" d="M${toX - 4} ${toY - 4}l8 8m0 -8l-8 8"/>` : html`<path class="head" d="M${toX - 3 * way} ${toY}l${-7 * way} -4v8z"/>`;
  return html`<g class="${classes('message', names)}" ${choice(`step ${goTo}`, label)}><path class="hit" d="${line}"/><path class="way" d="${line}"/>${end}
    ${roomy && told ? html`<text x="${fromX + at * (toX - fromX)}" y="${fromY + at * (toY - fromY) - 5}">${told}</text>` : ''}<title>${label}</title></g>`;
}
