// The drawing: the network at a step, as parts of an SVG.
import { nameOf, named, prefixInView, routeAt } from './trace.js';
import { UNREACHABLE } from './datagrams.js';
import { walkOf } from './walks.js';
import { pathOf, waysOf } from './packets.js';
import { fitted } from './layout.js';
import { boxAt, costPoint, labelPoint, platesOf, pointBy } from './placing.js';
import { hasChanged } from './tables.js';
import { marksOf } from './marks.js';
import { drawOutsiders } from './outsiders.js';
import { drawRun, runnersOf } from './running.js';
import { guessed } from './quiz.js';
import { isAsked, isHushed } from './veiling.js';
import { choice, classes, html } from './markup.js';

// The walk behind the metric that was chosen, and where packets go: beside it, or alone; or the next hops of all routers.
function chosenWalk(view) {
  const { trace, step, chosen } = view;
  const { kind, router, prefix, target = prefix } = named(chosen, trace) ?? {}, state = trace.steps[step];
  const isOpen = isHushed(view), toAll = target ?? prefixInView(view);
  const isHidden = kind === 'route' && isAsked(view, router, prefix);
  const entry = kind === 'route' && !isHidden ? state.routers[router].table.get(prefix) : null;
  const packet = target && !isHidden && !isOpen ? pathOf(trace, state, router, target) : { way: [], hops: [], end: 'delivered', lost: null };
  if ((view.hasHops || kind === 'packet' && view.isFromAll) && toAll && !isOpen) packet.all = waysOf(trace, state, toAll);
  return { ...entry ? walkOf(trace, router, entry) : { hops: [], owner: null }, packet };
}

// The state has the trace, the step and that since which changes are marked, what is chosen, the wiring, the places and
// shifts of its spots, and the pane. Most parts are the same from one step to the next.
export function drawingOf(state) {
  const { trace, wiring: { wires, hubs, count }, step } = state, fit = fitted(state.spots, state.shifts, state.pane, state.isLarge, state.room);
  const scene = { since: step - 1, ...state, ...trace.steps[step], fit, walk: chosenWalk(state), prefix: prefixInView(state),
    plates: platesOf(fit, state.wiring, state.isLarge), costs: [], labels: [] };
  const all = draw => scene.routers.map((_, router) => draw(scene, router));
  const atEnds = draw => wires.flatMap(wire => wire.ends.map(end => draw(scene, wire, end)));
  const parts = [
    ...wires.map(wire => drawWire(scene, wire)),
    html`${hubs.map((link, hub) => drawHub(link, fit.places[count + hub]))}`,
    html`${drawPackets(scene)}${drawDropped(scene)}
      ${scene.walk.hops.map((hop, index) => drawHop(scene, hop, index))}`,
    ...all(drawRouter), ...atEnds(drawCost), ...all(drawLabel), ...all(drawMetric), ...marksOf(scene),
    html`${drawOutsiders(scene)}`, html`${drawRuns(scene)}`,
  ];
  return { ...fit, parts };
}

const drawHub = (link, { x, y }) =>
  html`<circle class="hub" cx="${x}" cy="${y}" r="4"><title>link ${link}</title></circle>`;
const path = points => `M${points.map(({ x, y }) => `${x} ${y}`).join('L')}`;

// A click on a wire, or beside it, chooses the interface at one end of it.
function drawWire({ trace, fit: { places }, out, chosen }, { from, to, ends }) {
  const [{ router, iface, link }] = ends, line = path([places[from], places[to]]), cut = out.has(`link ${link}`) ? 'cut' : '';
  const text = `iface ${router} ${iface}`, whose = trace.links.get(link).map(end => nameOf(trace, end.router)).join(' and ');
  const label = `link ${link} of ${whose}${cut && ', cut'}`, isChosen = ends.some(end => chosen === `iface ${end.router} ${end.iface}`);
  return html`<g class="${classes('link-line', isChosen && 'chosen')}" ${choice(text, label, chosen)}>
    <path class="grip" d="${line}"/><path class="wire ${cut}" d="${line}"/><title>${label}</title></g>`;
}

// A link whose ends all cost 1 has no numbers.
function drawCost({ trace, fit, plates, costs, routers, chosen }, wire, { router, iface }) {
  const { addr, cost, link } = routers[router].interfaces[iface], size = fit.roomy ? 12 : 8.5;
  const { x, y } = costPoint(fit, plates[router], wire, router, size);
  const text = `iface ${router} ${iface}`, label = `${nameOf(trace, router)} interface ${iface}: cost ${cost}`;
  const isPlain = trace.links.get(link).every(end => routers[end.router].interfaces[end.iface].cost === 1);
  if (!isPlain) costs.push(boxAt({ x, y }, size, size));
  return html`<g class="${classes('cost', chosen === text && 'chosen')}" ${choice(text, label, chosen)}>
    <circle class="target" cx="${x}" cy="${y}" r="${fit.roomy ? 12 : 6}"/>${isPlain && chosen !== text ? ''
    : html`<text x="${x}" y="${y}" font-size="${size}">${cost}</text>`}<title>${label}, ${addr}, link ${link}</title></g>`;
}

// A name stands in the circle where it is short.
const LEAST_LETTERS = 8.5, SEEN_LETTERS = 4.5;
const lettersIn = ({ fit: { radius }, routers }, router, name) =>
  Math.min(0.78 * radius, 1.7 * (radius - (routers[router].prefixes.length > 0 ? 3 : 0)) / (0.6 * name.length));
const isInside = (scene, router) => lettersIn(scene, router, nameOf(scene.trace, router)) >= LEAST_LETTERS;
// All names of a drawing are as large as the least that stands in its circle.
function lettersOf(scene) {
  const insideOf = router => isInside(scene, router) ? nameOf(scene.trace, router) : `R${router}`;
  scene.letters ??= Math.min(...scene.routers.map((_, router) => lettersIn(scene, router, insideOf(router))));
  return scene.letters;
}

function drawRouter(scene, router) {
  const { trace, fit: { places, radius }, walk, record, chosen, prefix, out } = scene;
  const { quiet, prefixes } = scene.routers[router], metric = routeAt(scene, router, prefix)?.metric, name = nameOf(trace, router);
  const { x, y } = places[router], inside = isInside(scene, router) ? name : `R${router}`, letters = lettersOf(scene);
  const walked = router === walk.owner || walk.hops.some(hop => hop.end.router === router), text = `router ${router}`;
  const is = { quiet, silent: out.has(text), moved: record.router === router, changed: !scene.isQuiz && hasChanged(scene, router, prefix),
    walked, chosen: chosen === text };
  const owns = prefixes.map(({ prefix: own, tag }) => `, originates ${own} with tag ${tag}`).join('');
  const manner = `${quiet ? ', quiet' : ''}${is.silent ? ', down' : ''}`;
  const isHidden = scene.isQuiz && guessed(scene, router) !== metric || isAsked(scene, router, prefix);
  const label = `${name}${manner}${owns}${metric && !isHidden ? `, metric ${metric} for ${prefix}` : ''}`;
  return html`<g class="router ${classes(...Object.keys(is).filter(one => is[one]))}" data-router="${router}"
    ${choice(text, label, chosen)}><circle cx="${x}" cy="${y}" r="${radius}"/>
    ${prefixes.length > 0 ? html`<circle class="owner" cx="${x}" cy="${y}" r="${Math.max(1, radius - 3)}"/>` : ''}
    ${letters < SEEN_LETTERS ? '' : html`<text x="${x}" y="${y}" font-size="${letters}">${inside}</text>`}<title>${label}</title></g>`;
}

// The metric at a corner of a router: a click asks why.
function drawMetric(scene, router) {
  const { trace, fit: { roomy }, prefix, isQuiz, chosen } = scene, metric = routeAt(scene, router, prefix)?.metric;
  const { x, y, size } = scene.plates[router], guess = isQuiz ? guessed(scene, router) : null;
  const isOpen = !isQuiz && isAsked(scene, router, prefix);
  if (!metric && !isQuiz && !isOpen) return html``;
  const shown = isQuiz ? guess ?? '?' : isOpen ? '?' : metric;
  const says = isQuiz ? 'guess' : isOpen ? 'a blank asks for it' : `why metric ${metric}?`;
  const label = `${prefix} at ${nameOf(trace, router)}: ${says}`;
  const is = classes('metric', hasChanged(scene, router, prefix) && !isQuiz && 'changed', isQuiz && guess !== null && 'right');
  return html`<g class="${is}" transform="translate(${x} ${y})" ${roomy ? choice(`route ${router} ${prefix}`, label, chosen) : ''}>
    ${roomy ? html`<circle class="target" r="12"/>` : ''}<circle class="plate" r="${size}"/>
    <text class="${metric >= UNREACHABLE && !isQuiz && !isOpen ? 'unreachable' : ''}" font-size="${1.25 * size}">${shown}</text></g>`;
}

// A router's name where it is too long for its circle, and what it originates.
function drawLabel(scene, router) {
  const { trace, fit: { roomy }, routers, labels } = scene;
  const [own, ...others] = routers[router].prefixes, more = others.length > 0 ? ` +${others.length}` : '';
  const text = [!isInside(scene, router) && trace.names.get(router), own && `${own.prefix}${more}`].filter(Boolean).join(' · ');
  if (!roomy || !text) return html``;
  const wide = 6.4 * text.length, { x, y } = labelPoint(scene, router, wide);
  labels.push(boxAt({ x, y }, wide, 13));
  return html`<text class="prefix" x="${x}" y="${y}">${text}</text>`;
}

// ---- Paths ----
const circled = number => number <= 20 ? String.fromCodePoint(0x245f + number) : `(${number})`;

// The points of a hop from one end to another, so many pixels aside: by one wire, or by two and the hub between them.
function pointsOf({ fit, wiring: { wireOf } }, from, to, aside) {
  const there = wireOf.get(from), back = wireOf.get(to), gap = fit.radius + 3;
  const atHub = there === back ? [] : [[there, there.to, 0, -aside], [back, back.to, 0, aside]];
  return [[there, from.router, gap, aside], ...atHub, [back, to.router, gap, -aside]].map(way => pointBy(fit, ...way));
}

// A hop of the walk, from the router that received to the one that advertised; a walk that passes again is drawn beside. Its
// number stands past the datagrams of the router that it leaves.
function drawHop(scene, { end, datagram }, index) {
  const { walk: { hops }, out } = scene, pass = hops.slice(0, index).filter(before => before.end === end).length;
  const points = pointsOf(scene, end, datagram.end, 4 + 9 * pass), part = [0.62, 0.5, 0.74][pass % 3], [a, b] = points;
  const isOut = out.has(`link ${end.link}`) || out.has(`router ${datagram.router}`);
  return html`<path class="hop ${isOut ? 'broken' : ''}" d="${path(points)}" marker-end="url(#arrow)"/>
    <text class="hop-name" x="${a.x + part * (b.x - a.x)}" y="${a.y + part * (b.y - a.y)}">${circled(index + 1)}</text>`;
}

// The hops of a packet, as the tables are now, on the other side of the wire: red in a loop and where it is lost, and faint
// behind that. Or the first hop of a packet from each router.
function drawPackets(scene) {
  const { hops, loops, lost, all } = scene.walk.packet;
  if (all) return all.filter(({ hop }) => hop).map(({ hop, isLoop, isLost }) => drawPacket(scene, hop, { isLoop, isLost }));
  return hops.map((hop, index) =>
    drawPacket(scene, hop, { isLoop: index >= loops, isLost: lost?.hop === index, isBeyond: lost && index > lost.hop }));
}

function drawPacket(scene, { from, to }, { isLoop, isLost, isBeyond }) {
  const isAstray = !isBeyond && (isLost || isLoop);
  return html`<path class="${classes('packet', isAstray && 'astray', isLost && 'lost', isBeyond && 'beyond')}"
    d="${path(pointsOf(scene, from, to, -5))}" marker-end="url(#${isAstray ? 'arrow-astray' : 'arrow-packet'})"/>`;
}

// Packets that run, while they are asked for.
function drawRuns(scene) {
  const { kind, router, target = scene.prefix } = named(scene.chosen, scene.trace) ?? {}, isOne = /^(router|route|packet)$/.test(kind);
  if (!scene.isSending || !target || isHushed(scene)) return '';
  return runnersOf(scene, isOne ? router : undefined).map(one => drawRun({ ...scene, target }, one, ({ from, to }) => pointsOf(scene, from, to, -5)));
}

// A cross at the router that drops it.
function drawDropped({ isSending, walk: { packet: { way, end, lost } }, fit: { places, radius } }) {
  if (isSending || lost || !/^(noRoute|nobodys)$/.test(end)) return '';
  const { x, y } = places[way.at(-1)], [left, top, size] = [x - 0.75 * radius - 12, y + 0.75 * radius, 10];
  return html`<path class="cross" d="M${left} ${top}l${size} ${size}m0 ${-size}l${-size} ${size}"><title>dropped here</title></path>`;
}
