// Packets that run: from a router, hop by hop as the tables of a step say, until they arrive or die.
import { nameOf } from './trace.js';
import { pathOf } from './packets.js';
import { html } from './markup.js';

// A packet in a loop is seen to go around so often before its hop limit ends; of more routers than these one packet at a time runs.
const TURNS = 3, MOST_RUNNERS = 40;
// The seconds of a hop, and of a whole way at most.
const PACE = { hop: 0.45, most: 8 };

// The hops of a packet and how it ends: `arrives`, or dies where it is `dropped`, `lost` on the last of its hops or before the first,
// or `circles`.
export function runOf(trace, state, router, target) {
  const { hops, end, loops, lost } = pathOf(trace, state, router, target);
  if (lost) return { hops: hops.slice(0, lost.hop + 1), fate: 'lost', isHalfWay: lost.thing.startsWith('link') };
  const turns = loops === undefined ? [] : Array(TURNS - 1).fill(hops.slice(loops)).flat();
  return { hops: [...hops, ...turns], fate: { delivered: 'arrives', loops: 'circles' }[end] ?? 'dropped', isHalfWay: false };
}

// From which routers packets run: from the one that was chosen, else from all that are up.
export function runnersOf({ trace, step }, chosenRouter) {
  const { out } = trace.steps[step], all = trace.ends.map((_, router) => router).filter(router => !out.has(`router ${router}`));
  if (chosenRouter !== undefined) return [chosenRouter];
  return all.length > MOST_RUNNERS ? all.slice(0, 1) : all;
}

const ENDINGS = { arrives: 'arrives', dropped: 'is dropped: there is no route', lost: 'is lost', circles: 'circles in a loop until its hop limit ends' };

// A packet as a dot on its way; where it dies there is a cross at the end. `pointsOf` has the points of a hop.
export function drawRun({ trace, fit, target, ...scene }, router, pointsOf) {
  const { hops, fate, isHalfWay } = runOf(trace, scene, router, target), here = fit.places[router], all = hops.flatMap(pointsOf);
  const [a, b] = all.slice(-2), ends = isHalfWay ? [...all.slice(0, -1), { x: (a.x + b.x) / 2, y: (a.y + b.y) / 2 }] : all;
  const points = [here, ...ends], last = points.at(-1), line = points.map(({ x, y }) => `${x} ${y}`).join('L');
  const time = Math.min(PACE.most, PACE.hop * Math.max(1, hops.length)), says = `a packet from ${nameOf(trace, router)} ${ENDINGS[fate]}`;
  const size = 7, cross = `M${last.x - size} ${last.y - size}l${2 * size} ${2 * size}m0 ${-2 * size}l${-2 * size} ${2 * size}`;
  return html`<g class="run ${fate}" role="img" aria-label="${says}"><circle r="5.5" cx="0" cy="0" transform="translate(${last.x} ${last.y})"/>
    ${hops.length === 0 ? '' : html`<circle class="runner" r="5.5"><animateMotion path="M${line}" dur="${time}s" begin="indefinite" fill="freeze"/></circle>`}
    ${fate === 'arrives' ? '' : html`<path class="cross" data-after="${hops.length === 0 ? 0 : time}" d="${cross}"/>`}<title>${says}</title></g>`;
}
