// The datagrams of the drawing: under way, just lost, and those that come, each an envelope on its link.
import { nameOf, onTheirWay } from './trace.js';
import { isAskedInVain } from './losses.js';
import { isAsked } from './veiling.js';
import { UNREACHABLE, entriesOf } from './datagrams.js';
import { offersOf } from './walks.js';
import { pointBy } from './placing.js';
import { whyAsks, plural } from './texts.js';
import { choice, classes, html } from './markup.js';

// So many datagrams at most are seen to fly at once.
const MOST_FLIGHTS = 150;

export function marksOf(scene) {
  const { wiring: { wires } } = scene;
  const piles = wires.flatMap(wire => wire.ends.flatMap(end => [drawWaiting(scene, wire, end), drawLost(scene, wire, end)]));
  return [...piles, html`${arrivalsOf(scene).map(one => drawArrival(scene, one))}`];
}

// What a datagram is, in words: a question with its reason, or the answer to one.
export function questionText(view, { asks, answers, router }) {
  const name = nameOf(view.trace, router), isOpen = prefix => isAsked(view, router, prefix);
  if (asks) return `a Request: ${view.isQuiz ? `${name} asks its neighbors` : whyAsks(asks, isOpen).replace('it', name)}`;
  return answers === null ? '' : `the answer to datagram ${answers}`;
}
const askedIn = (scene, datagram) => { const text = questionText(scene, datagram); return text && `, ${text}`; };

// The metric that an envelope advertises for the prefix in view, and how a router adds to it where it comes. What an open blank asks
// for is veiled in the trace; in a quiz an envelope says what it has where it comes.
const metricTold = (scene, { bytes, came = bytes }, isComing) => !scene.fit.roomy || scene.isQuiz && !isComing || !came.startsWith('02') ? undefined
  : entriesOf(came).filter(({ prefix }) => prefix === scene.prefix).map(({ metric }) => metric || '?')[0];
function sumAt(scene) {
  const { told, cost, offered } = offersOf(scene.trace, scene.step).find(({ prefix }) => prefix === scene.prefix) ?? {};
  return !told || told >= UNREACHABLE ? '' : `${told} + ${cost} ${told + cost > offered ? '→' : '='} ${offered}`;
}

const isSince = ({ since, step }, at) => at > since && at <= step;
// Places on the wire of an end, seen from its router.
const placeBy = ({ fit, routers }, wire, end, more) =>
  pointBy.bind(null, fit, wire, end.router, fit.radius + 40 + more + 4 * routers[end.router].interfaces.length, 3);

// What a router sent on an interface and is under way: the newest, and how many in all.
function drawWaiting(scene, wire, end) {
  const [newest, ...others] = onTheirWay(end, scene.step), count = others.length + 1;
  if (!newest) return html``;
  const isFresh = isSince(scene, newest.sentAt), has = others.some(({ datagram }) => scene.chosen === `datagram ${datagram}`);
  const more = count > 1 ? `, and ${others.length} more` : '';
  const says = `datagram ${newest.datagram} of ${nameOf(scene.trace, end.router)}${more}${askedIn(scene, newest)}`;
  return drawMark(scene, placeBy(scene, wire, end, 0), newest, { names: classes(isFresh && 'fresh', has && 'chosen'), count, says });
}

// What was lost since the step that was shown before: once, with a cross. The Requests that the first round passes by go
// without one.
function drawLost(scene, wire, end) {
  const { step } = scene, lost = end.sent.filter(one => one.doneAt > step && isSince(scene, one.lostAt) && !isAskedInVain(one));
  if (lost.length === 0) return html``;
  const newest = lost.at(-1), says = `${plural(lost.length, 'datagram')} of ${nameOf(scene.trace, end.router)} lost: ${
    lost.map(({ datagram }) => datagram).join(', ')}`;
  return drawMark(scene, placeBy(scene, wire, end, 14), newest, { names: 'lost', count: lost.length, says });
}

// What came since the step that was shown before, while it flies; else what comes at this step.
function arrivalsOf({ trace, since, flownSince = since, step, flying, record }) {
  if (!flying) return record.event?.datagram !== undefined ? [{ record, isLast: true }] : [];
  const records = trace.steps.slice(Math.max(0, flownSince + 1), step + 1).map(state => state.record);
  return records.filter(({ event }) => event?.datagram !== undefined).slice(-MOST_FLIGHTS)
    .map(one => ({ record: one, isLast: one === record }));
}

// A datagram where it comes in; while it flies, on its way from its sender. Only that of this step stays.
function drawArrival(scene, { record: { router, event, fault }, isLast }) {
  const { trace, wiring: { wireOf }, fit, flying } = scene, datagram = trace.datagrams[event.datagram];
  const wire = wireOf.get(trace.ends[router][event.iface]), isSame = wire === wireOf.get(datagram.end);
  const flight = flying && { from: fit.places[datagram.router], by: isSame ? null : fit.places[wire.to] };
  const names = classes('fresh', fault && 'refused', flying && 'flying', !isLast && 'passing');
  const says = `datagram ${event.datagram} of ${nameOf(trace, datagram.router)} comes to ${nameOf(trace, router)}${askedIn(scene, datagram)}`;
  const aside = isLast && !flying && !fault && event.kind === 'deliver' ? sumAt(scene) : '';
  return drawMark(scene, pointBy.bind(null, fit, wire, router, fit.radius + 26, 0), datagram, { names, count: 1, says, flight, aside, isComing: true });
}

// An envelope, at the place for what is so wide and high, with the metric that it tells, or a question; with how many it stands
// for, on the side that is away from the wire.
function drawMark(scene, place, datagramOf, { names, count, says, flight, aside = '', isComing }) {
  const { fit: { roomy }, chosen } = scene, { datagram, asks } = datagramOf, told = metricTold(scene, datagramOf, isComing);
  const wide = roomy ? 18 : 8, high = roomy ? 12 : 6, text = `datagram ${datagram}`, { x, y } = place(wide, high);
  const [left, right, top] = [x - wide / 2, x + wide / 2, y - high / 2], many = count > 1 ? `×${count}` : '';
  const flap = `M${left} ${top}L${x} ${y + 1}L${right} ${top}`, isLost = names.includes('lost'), isLeft = x < place(0, 0).x - 1;
  const sign = asks ? '?' : told, kind = classes(asks ? 'question' : 'told', told >= UNREACHABLE && 'unreachable');
  const inside = sign ? html`<text class="${kind}" x="${x}" y="${y}">${sign}</text>` : html`<path class="flap" d="${flap}"/>`;
  return html`<g class="${classes('pile', names, asks && 'asks', chosen === text && 'chosen')}" data-motion="${flight ? motionOf(flight, { x, y }) : ''}"
    ${choice(text, says, chosen)}><rect class="target" x="${x - 12}" y="${y - 12}" width="24" height="24"/>
    <rect x="${left}" y="${top}" width="${wide}" height="${high}" rx="2"/>${roomy ? inside : ''}
    ${isLost ? html`<path class="cross" d="M${x - 8} ${y - 8}L${x + 8} ${y + 8}M${x + 8} ${y - 8}L${x - 8} ${y + 8}"/>` : ''}
    ${roomy && aside ? html`<text class="sum" x="${x}" y="${y + high + 1}">${aside}</text>` : ''}
    ${roomy && many ? html`<text x="${isLeft ? left - 5 : right + 5}" y="${y}" class="${isLeft ? 'before' : ''}">${many}</text>` : ''}<title>${says}</title></g>`;
}

// From where, and past where, a mark comes to its place: the style for its animation, which `showing.js` sets.
function motionOf({ from, by }, { x, y }) {
  const middle = by ?? { x: (from.x + x) / 2, y: (from.y + y) / 2 };
  return `--from: ${from.x - x}px, ${from.y - y}px; --by: ${middle.x - x}px, ${middle.y - y}px`;
}
