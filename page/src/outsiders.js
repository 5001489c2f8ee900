// Hosts that are no routers, in the drawing: who sent a forged or an outside datagram, and to whom it came.
import { nameOf } from './trace.js';
import { UNREACHABLE } from './datagrams.js';
import { isForeign, toldIn } from './timeline.js';
import { isHushed } from './veiling.js';
import { pointBy } from './placing.js';
import { classes, html } from './markup.js';

// How far beside its link a host stands, and half of its side, in pixels.
const ASIDE = 46, HALF = 8;

// What came of such hosts since the step that was shown before, each host once.
export function outsidersIn({ trace, since, step, prefix, ...view }) {
  const hosts = new Map();
  for (const { record } of trace.steps.slice(Math.max(0, since + 1), step + 1)) {
    if (!isForeign(record)) continue;
    const { router, fault, event: { kind, iface, source, bytes, hop_limit: hops } } = record, { link } = trace.ends[router][iface];
    const key = `${link} ${source} ${kind}`, told = isHushed(view) ? undefined : toldIn(bytes, prefix);
    if (!hosts.has(key)) hosts.set(key, { link, source, isOutside: kind === 'stranger' && hops < 255, isForged: bytes?.startsWith('02'), told, hearers: [] });
    hosts.get(key).hearers.push({ end: trace.ends[router][iface], isRefused: Boolean(fault) });
  }
  return [...hosts.values()];
}

// Each stands beside its link, with an arrow to every router that heard it.
export const drawOutsiders = scene => outsidersIn(scene).map(host => drawHost(scene, host));

function drawHost(scene, host) {
  const { fit, trace, wiring: { wireOf } } = scene, { source, hearers, told, isOutside, isForged } = host, [{ end }] = hearers;
  const at = placeOf(fit, wireOf.get(end), end.router), heard = hearers.map(({ end: to, isRefused }) =>
    `${nameOf(trace, to.router)}${isRefused ? ', which refuses it' : ''}`).join(' and ');
  const says = `${source}, a host that is no router ${isOutside ? 'from outside the link' : 'on the link'}, sends ${isForged ? 'a forged Response' : 'a datagram'} to ${heard}`;
  return html`<g class="${classes('outsider', isOutside && 'outside')}" role="img" aria-label="${says}">
    ${hearers.map(({ end: to, isRefused }) => drawForgery(fit, at, fit.places[to.router], isRefused, told))}
    <rect x="${at.x - HALF}" y="${at.y - HALF}" width="${2 * HALF}" height="${2 * HALF}"/><text x="${at.x}" y="${at.y}">!</text>
    <text class="source" x="${at.x}" y="${at.y - HALF - 8}">${source}${isOutside ? ', outside' : ''}</text><title>${says}</title></g>`;
}

// Beside the middle of the wire, or of the router where a link has it alone, within the pane.
function placeOf(fit, wire, router) {
  const { x, y } = pointBy(fit, wire, router, Infinity, ASIDE), within = (wish, size) => Math.max(ASIDE, Math.min(wish, size - ASIDE));
  return { x: within(x, fit.width), y: within(y, fit.height) };
}

function drawForgery({ radius }, from, to, isRefused, told) {
  const dx = to.x - from.x, dy = to.y - from.y, length = Math.hypot(dx, dy) || 1, part = Math.max(0, length - radius - 5) / length;
  const tip = { x: from.x + part * dx, y: from.y + part * dy }, [cos, sin] = [dx / length, dy / length], middle = { x: from.x + 0.55 * part * dx, y: from.y + 0.55 * part * dy };
  const wing = side => `${tip.x - 8 * cos - 4 * side * sin} ${tip.y - 8 * sin + 4 * side * cos}`;
  const letter = told === undefined ? '' : html`<rect class="letter" x="${middle.x - 9}" y="${middle.y - 6}" width="18" height="12" rx="2"/>
    <text class="${classes('told', told >= UNREACHABLE && 'unreachable')}" x="${middle.x}" y="${middle.y}">${told}</text>`;
  const cross = isRefused ? html`<path class="cross" d="M${tip.x - 5} ${tip.y - 5}l10 10m0 -10l-10 10"/>` : html`<path class="head" d="M${tip.x} ${tip.y}L${wing(1)}L${wing(-1)}z"/>`;
  return html`<path class="${classes('forged', isRefused && 'refused')}" d="M${from.x} ${from.y}L${tip.x} ${tip.y}"/>${cross}${letter}`;
}
