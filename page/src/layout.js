// Where routers stand: the links as wires, and places for all of them.

// What is drawn of the links: wires from spot to spot, each with the ends on it. A link of two routers is one wire; any
// other, and a second one of the same two, has a hub, a spot behind those of the routers, and a wire from each end.
export function wiringOf(trace) {
  const wires = [], hubs = [], count = trace.ends.length, joined = new Set();
  for (const [link, ends] of trace.links) {
    const [from, to] = ends.map(end => end.router), isWire = ends.length === 2 && from !== to && !joined.has(`${from} ${to}`);
    if (isWire) joined.add(`${from} ${to}`);
    const hub = count + (isWire ? 0 : hubs.push(link) - 1);
    wires.push(...isWire ? [{ from, to, ends }] : ends.map(end => ({ from: end.router, to: hub, ends: [end] })));
  }
  const wireOf = new Map(wires.flatMap(wire => wire.ends.map(end => [end, wire])));
  return { wires, hubs, count, size: count + hubs.length, wireOf };
}

// ---- What stays where it is ----
// A link is known by the addresses on it, whatever numbers its routers have.
const linkKey = ends => ends.map(({ addr }) => addr).sort().join();

// How many links two networks do not share, but those of routers that only one of them has.
export function linksApart(one, other) {
  const [mine, theirs] = [one, other].map(({ ends }) => new Set(ends.flat().map(({ addr }) => addr)));
  const isWhole = (ends, trace, all) => ends.every(({ router }) => trace.ends[router].some(({ addr }) => all.has(addr)));
  const [had, has] = [[one, theirs], [other, mine]].map(([trace, all]) =>
    new Set([...trace.links.values()].filter(ends => isWhole(ends, trace, all)).map(linkKey)));
  return [...had].filter(key => !has.has(key)).length + [...has].filter(key => !had.has(key)).length;
}

// Whether one network has come of another by a click: a link or a router more or less.
const isNear = (had, trace) => Math.abs(had.ends.length - trace.ends.length) <= 1 && linksApart(had, trace) <= 2;

// The spots of a network that has come of another, where all that was there stays; null where too little of it is the same. A new
// router stands a wire's length from a neighbor, where it is freest, and a new hub amid its routers.
export function keptSpots(spots, had, wired, trace, wiring) {
  if (!isNear(had, trace)) return null;
  const routers = new Map(had.ends.flat().map(({ addr, router }) => [addr, spots[router]]));
  const hubs = new Map(wired.hubs.map((link, hub) => [had.links.get(link)[0].addr, spots[wired.count + hub]]));
  const kept = Array(wiring.size).fill(null);
  trace.ends.forEach((ends, router) => { kept[router] = ends.map(({ addr }) => routers.get(addr)).find(Boolean) ?? null; });
  wiring.hubs.forEach((link, hub) => { kept[wiring.count + hub] = trace.links.get(link).map(({ addr }) => hubs.get(addr)).find(Boolean) ?? null; });
  if (kept.slice(0, wiring.count).filter(Boolean).length < wiring.count - 1) return null;
  kept.forEach((spot, number) => { kept[number] ??= freeSpot(kept, wiring, number); });
  return kept;
}

const AROUND = 24;
function freeSpot(kept, { wires, count }, spot) {
  const others = kept.filter(Boolean), neighbors = wires.flatMap(({ from, to }) => from === spot ? [kept[to]] : to === spot ? [kept[from]] : []).filter(Boolean);
  const sum = axis => neighbors.reduce((total, one) => total + one[axis], 0) / (neighbors.length || 1), middle = { x: sum('x'), y: sum('y') };
  const far = spot < count ? 1 : 0.3, around = Array.from({ length: AROUND }, (_, turn) => {
    const angle = 2 * Math.PI * turn / AROUND;
    return { x: middle.x + far * Math.cos(angle), y: middle.y + far * Math.sin(angle) };
  });
  const room = ({ x, y }) => Math.min(...others.map(other => Math.hypot(x - other.x, y - other.y)));
  return around.reduce((best, one) => room(one) > room(best) + 1e-9 ? one : best);
}

// So many routers at most are drawn; of more there are tables alone.
export const MOST_DRAWN = 256;
export const isDrawn = ({ ends }) => ends.length > 0 && ends.length <= MOST_DRAWN;
export const notDrawn = ({ ends }) => ends.length === 0 ? 'There is no network yet.'
  : `This network has ${ends.length} routers. Above ${MOST_DRAWN} the page shows tables and no drawing.`;

// Places for the spots, a wire being about one unit long: as far apart as they are along wires, turned so that most
// wires are level or upright, and spot 0 is to the left and the top. Lines and grids are seen as such; a ring is a regular
// polygon, a star a ring around its middle, and a long line goes forth and back in rows.
const MANY_SPOTS = 100;
export function layOut({ wires, size, count }) {
  if (count > MOST_DRAWN) return [];
  const ring = ringOf(wires, size), line = size > LONG_LINE ? lineOf(wires, size) : null;
  if (ring) return ringAround(ring);
  if (line) return inRows(line);
  const middle = Array(size).fill().findIndex((_, spot) => wires.every(({ from, to }) => from === spot || to === spot));
  if (size > 4 && wires.length === size - 1 && middle >= 0) return starAround(middle, size);
  const lengths = lengthsBetween(wires, size), spots = byMainAxes(lengths);
  for (let round = 0; round < (size > MANY_SPOTS ? 30 : 80); round++) spots.forEach((_, spot) => { spots[spot] = relaxed(spots, lengths, spot); });
  return facing(upright(spots, wires));
}

// The neighbors of each spot, in the order of their numbers.
function neighborsOf(wires, size) {
  const next = Array.from({ length: size }, () => []);
  for (const { from, to } of wires) {
    next[from].push(to);
    next[to].push(from);
  }
  return next.map(spots => spots.sort((a, b) => a - b));
}

// The spots of a line in order, from the end with the lower number; null where there is none.
const LONG_LINE = 10;
function lineOf(wires, size) {
  const next = neighborsOf(wires, size), line = [next.findIndex(others => others.length === 1)];
  if (line[0] < 0 || wires.length !== size - 1 || next.some(others => others.length > 2)) return null;
  for (let spot; (spot = next[line.at(-1)].find(other => other !== line.at(-2))) !== undefined;) line.push(spot);
  return line.length === size ? line : null;
}

// About twice as wide as high.
function inRows(line) {
  const many = Math.ceil(Math.sqrt(1.8 * line.length)), spots = [];
  line.forEach((spot, at) => {
    const row = Math.floor(at / many), column = at % many;
    spots[spot] = { x: row % 2 === 0 ? column : many - 1 - column, y: row };
  });
  return spots;
}

// The spots of a ring in order, from 0 to the nearer number of its neighbors; null where there is none.
function ringOf(wires, size) {
  const next = neighborsOf(wires, size);
  if (size < 3 || next.some(others => new Set(others).size !== 2 || others.length !== 2)) return null;
  const ring = [0, next[0][0]];
  while (ring.length < size) ring.push(next[ring.at(-1)].find(spot => spot !== ring.at(-2)));
  return new Set(ring).size === size ? ring : null;
}

// Spot 0 stands at the top; of three the next to its lower left, of four it stands at the upper left, else clockwise.
function ringAround(ring) {
  const { length } = ring, radius = 0.5 / Math.sin(Math.PI / length), way = length === 3 ? -1 : 1;
  const spots = [];
  ring.forEach((spot, index) => {
    const turn = way * 2 * Math.PI * index / length - (length === 4 ? Math.PI / 4 : 0);
    spots[spot] = { x: radius * Math.sin(turn), y: -radius * Math.cos(turn) };
  });
  return spots;
}

// Rather wide than high, and mirrored so that spot 0 is to the left and the top.
function facing(spots) {
  const extent = axis => Math.max(...spots.map(spot => spot[axis])) - Math.min(...spots.map(spot => spot[axis]));
  const wide = extent('y') > extent('x') + 0.1 ? spots.map(({ x, y }) => ({ x: y, y: x })) : spots;
  const isFar = axis => wide[0][axis] - wide.reduce((sum, spot) => sum + spot[axis], 0) / wide.length > 0.05;
  const [left, up] = [isFar('x') ? -1 : 1, isFar('y') ? -1 : 1];
  return wide.map(({ x, y }) => ({ x: left * x, y: up * y }));
}

function starAround(middle, size) {
  const around = size - 1, radius = Math.max(1, around / (2 * Math.PI));
  return Array.from({ length: size }, (_, spot) => {
    const turn = 2 * Math.PI * (spot > middle ? spot - 1 : spot) / around, away = spot === middle ? 0 : radius;
    return { x: away * Math.sin(turn), y: -away * Math.cos(turn) };
  });
}

// The lengths of the shortest ways between spots; unjoined parts stand a unit further apart than the longest.
function lengthsBetween(wires, size) {
  const next = neighborsOf(wires, size), lengths = next.map((_, spot) => lengthsFrom(next, spot));
  const longest = lengths.reduce((most, row) => row.reduce((so, length) => length < Infinity ? Math.max(so, length) : so, most), 0);
  return lengths.map(row => row.map(length => Math.min(length, longest + 1)));
}

function lengthsFrom(next, spot) {
  const lengths = Array(next.length).fill(Infinity), queue = [spot];
  lengths[spot] = 0;
  for (const here of queue) {
    for (const other of next[here]) {
      if (lengths[other] < Infinity) continue;
      lengths[other] = lengths[here] + 1;
      queue.push(other);
    }
  }
  return lengths;
}

// Classical scaling: the two axes along which squared lengths spread most.
function byMainAxes(lengths) {
  const mean = numbers => numbers.reduce((sum, number) => sum + number, 0) / numbers.length;
  const means = lengths.map(row => mean(row.map(length => length ** 2))), whole = mean(means);
  const spread = lengths.map((row, a) => row.map((length, b) => (means[a] + means[b] - whole - length ** 2) / 2));
  const first = mainAxis(spread), rest = spread.map((row, a) => row.map((number, b) => number - first[a] * first[b]));
  const second = mainAxis(rest);
  return first.map((x, spot) => ({ x, y: second[spot] }));
}

// By power iteration, to the length that makes its product with itself the spread.
function mainAxis(spread) {
  let axis = spread.map((_, spot) => Math.sin(3 * spot + 2));
  for (let round = 0; round < 100; round++) {
    const next = spread.map(row => product(row, axis)), length = Math.hypot(...next) || 1;
    axis = next.map(number => number / length ** (2 / 3));
  }
  return axis;
}
function product(row, axis) {
  let sum = 0;
  for (let spot = 0; spot < row.length; spot++) sum += row[spot] * axis[spot];
  return sum;
}

// Where a spot would stand best for all others: at its length from each, near ones counting most, too close to none.
function relaxed(spots, lengths, spot) {
  const here = spots[spot], far = lengths[spot];
  let x = 0, y = 0, weights = 0;
  for (let number = 0; number < spots.length; number++) {
    if (number === spot) continue;
    const other = spots[number], dx = here.x - other.x, dy = here.y - other.y, apart = Math.sqrt(dx * dx + dy * dy) || 1e-6;
    const length = apart < 0.75 ? 1 : far[number], weight = 1 / (length * length * length);
    x += weight * (other.x + length * dx / apart);
    y += weight * (other.y + length * dy / apart);
    weights += weight;
  }
  return weights > 0 ? { x: x / weights, y: y / weights } : here;
}

function upright(spots, wires) {
  const turns = wires.map(({ from, to }) => 4 * Math.atan2(spots[to].y - spots[from].y, spots[to].x - spots[from].x));
  const sum = along => turns.reduce((total, turn) => total + along(turn), 0);
  const turn = -Math.atan2(sum(Math.sin), sum(Math.cos)) / 4, cos = Math.cos(turn), sin = Math.sin(turn);
  return spots.map(({ x, y }) => ({ x: x * cos - y * sin, y: x * sin + y * cos }));
}

// In pixels: what is left free at the rims; how far apart routers stand at most, and with room for texts; and
// how far, and how many times as large at most, for a room.
const MARGIN = { x: 48, y: 40 }, NEAREST = { most: 230, roomy: 84 }, LARGE = { apart: 140, most: 4.5 };

// How near two spots come to each other; they are the same from step to step.
const keptNearest = new WeakMap();
function nearestOf(spots) {
  if (!keptNearest.has(spots)) {
    const least = spots.reduce((so, a, index) => spots.slice(0, index).reduce((near, b) => Math.min(near, Math.hypot(a.x - b.x, a.y - b.y)), so), 9);
    keptNearest.set(spots, least || 0.1);
  }
  return keptNearest.get(spots);
}

// The layout in pixels, moved by the shifts, in lengths of a wire: as large as the pane, however small routers are then. No spot
// leaves it. For a room all is `zoom` times as large. Where the pane is `room` times what is in sight, routers may stand as much
// further apart.
export function fitted(spots, shifts, pane, isLarge = false, room = 1) {
  const nearest = nearestOf(spots), whole = wholeScale(spots, pane, 1);
  const zoom = isLarge ? zoomOf(spots, nearest, pane) : 1, shown = { width: pane.width / zoom, height: pane.height / zoom };
  const scale = isLarge ? wholeScale(spots, shown, 1) : Math.min(whole, room * NEAREST.most / nearest);
  const along = (axis, pixels) => {
    const size = Math.max(pixels, extentOf(spots, axis) * scale + 2 * MARGIN[axis]);
    const middle = lowOf(spots, axis) + extentOf(spots, axis) / 2;
    const place = (spot, shift = 0) => size / 2 + (spot[axis] - middle + shift) * scale;
    const within = (spot, number) => Math.max(24, Math.min(size - 24, place(spot, shifts[number]?.[axis])));
    return { size, at: spots.map(within) };
  };
  const { size: width, at: xs } = along('x', shown.width), { size: height, at: ys } = along('y', shown.height);
  const apart = nearest * scale, places = xs.map((x, spot) => ({ x, y: ys[spot] }));
  return { width, height, places, scale, zoom, apart, radius: Math.min(20, Math.max(Math.min(9, 0.42 * apart), 0.3 * apart)), roomy: apart >= NEAREST.roomy };
}

const lowOf = (spots, axis) => Math.min(...spots.map(spot => spot[axis]));
const extentOf = (spots, axis) => Math.max(...spots.map(spot => spot[axis])) - lowOf(spots, axis);
const wholeScale = (spots, pane, zoom) => Math.min(...[['x', pane.width], ['y', pane.height]].map(([axis, pixels]) =>
  (pixels / zoom - 2 * MARGIN[axis]) / (extentOf(spots, axis) || 1)));

// How many times as large all is drawn: as far as routers still stand well apart.
function zoomOf(spots, nearest, pane) {
  for (let zoom = LARGE.most; zoom > 1; zoom -= 0.1) if (wholeScale(spots, pane, zoom) * nearest >= LARGE.apart) return zoom;
  return 1;
}
