// Where texts stand beside routers, so that none covers another: the plates of metrics, the costs of interfaces, and labels.

// A point by a wire, seen from a spot of it: so many pixels along, at most near the middle, and so many aside to the
// left; what is drawn there, so wide and high, leaves these free.
export function pointBy({ places }, wire, spot, along, aside, wide = 0, high = 0) {
  const here = places[spot], away = places[spot === wire.from ? wire.to : wire.from];
  const length = Math.hypot(away.x - here.x, away.y - here.y) || 1, far = Math.min(along, 0.42 * length);
  const dx = (away.x - here.x) / length, dy = (away.y - here.y) / length;
  const off = aside + Math.sign(aside) * (Math.abs(dy) * wide + Math.abs(dx) * high) / 2;
  return { x: here.x + far * dx + off * dy, y: here.y + far * dy - off * dx };
}

// The distance of a point from the line between two others.
function distanceFrom(point, [a, b]) {
  const dx = b.x - a.x, dy = b.y - a.y, part = ((point.x - a.x) * dx + (point.y - a.y) * dy) / (dx * dx + dy * dy || 1);
  const within = Math.max(0, Math.min(1, part));
  return Math.hypot(point.x - a.x - within * dx, point.y - a.y - within * dy);
}
const linesOf = ({ places }, wires) => wires.map(({ from, to }) => [places[from], places[to]]);

// ---- Metrics ----
// The metric of a router stands at its upper right, or where a wire leaves there at the corner that is freest.
const CORNERS = [[1, -1], [-1, -1], [1, 1], [-1, 1]];
export function platesOf(fit, { wires, count }, isLarge) {
  const { places, radius, roomy, apart } = fit, size = isLarge ? 0.8 * radius : roomy ? 9 : Math.min(6.5, 0.3 * apart), away = 0.7 * radius + 0.35 * size;
  return places.slice(0, count).map(({ x, y }, router) => {
    const corners = CORNERS.map(([right, down]) => ({ x: x + right * away, y: y + down * away, size }));
    const lines = linesOf(fit, wires.filter(({ from, to }) => from === router || to === router));
    const room = corners.map(corner => Math.min(...lines.map(line => distanceFrom(corner, line))));
    const isFree = room[0] > size + (isLarge ? 8 : 1), freest = Math.max(...room);
    return corners[isFree ? 0 : room.findIndex(distance => distance > freest - 1)];
  });
}

// ---- Costs ----
// The cost of an interface stands by its wire, on the right of who leaves; past the router's metric, where that covers it.
export function costPoint(fit, plate, wire, router, size) {
  const aside = fit.roomy ? -8 : -3, at = along => pointBy(fit, wire, router, fit.radius + along, aside, size / 2, size / 2);
  const covered = ({ x, y }) => Math.hypot(x - plate.x, y - plate.y) < plate.size + 0.7 * size;
  for (let along = size; along < size + 40; along += 3) if (!covered(at(along))) return at(along);
  return at(size);
}

// ---- Labels ----
// What a label covers: so much counts a plate, a router or a number, a wire, and one that is near.
const COVERS = { plate: 1000, text: 400, wire: 100, near: 10 };
const LINE = 13;

// Where a label stands, so many pixels wide, within the pane: below its router or above it, or beside, where it covers least.
export function labelPoint({ fit, plates, costs, labels, wiring: { wires, count } }, router, wide) {
  const { places, radius, width, height } = fit, { x, y } = places[router], plate = plates[router];
  const within = (wish, rim, size) => Math.max(rim, Math.min(wish, size - rim));
  const [below, above, side] = [y + radius + 11, y - radius - 12, radius + 5 + wide / 2], past = plate.size + 3 + wide / 2;
  const beside = [-10, 0, 10].flatMap(down => [[x + side, y + down], [x - side, y + down]]);
  const spots = [[x, below], [x, above], ...beside, [plate.x - past, above], [plate.x + past, above], [plate.x - past, below],
    [plate.x + past, below], [x, y + radius + 34], [x, y - radius - 34]];
  const lines = linesOf(fit, wires), circles = [...plates, ...places.slice(0, count).map(place => ({ ...place, size: radius }))];
  const cost = spot => {
    const box = boxAt(spot, wide, LINE), many = (all, isHit) => all.filter(isHit).length;
    return COVERS.plate * many(circles, circle => isOnCircle(box, circle)) + COVERS.text * many([...costs, ...labels], other => isOnBox(box, other))
      + COVERS.wire * many(lines, line => isOnLine(box, line, 2)) + COVERS.near * many(lines, line => isOnLine(box, line, 10));
  };
  let best = null;
  for (const [wishX, wishY] of spots) {
    const spot = { x: within(wishX, wide / 2, width), y: within(wishY, 8, height) }, covers = cost(spot);
    if (!best || covers < best.covers) best = { spot, covers };
    if (covers === 0) break;
  }
  return best.spot;
}

// ---- Boxes ----
export const boxAt = ({ x, y }, wide, high) => ({ left: x - wide / 2, right: x + wide / 2, top: y - high / 2, bottom: y + high / 2 });
const isOnBox = (a, b) => a.left < b.right && b.left < a.right && a.top < b.bottom && b.top < a.bottom;
const isOnCircle = ({ left, right, top, bottom }, { x, y, size }) =>
  Math.hypot(x - Math.max(left, Math.min(x, right)), y - Math.max(top, Math.min(y, bottom))) < size + 1;

// Whether a line comes to a box, or so near: it is cut off at each side, and something is left.
function isOnLine({ left, right, top, bottom }, [a, b], near) {
  let [from, to] = [0, 1];
  for (const [at, by, low, high] of [[a.x, b.x - a.x, left - near, right + near], [a.y, b.y - a.y, top - near, bottom + near]]) {
    if (by === 0 && (at < low || at > high)) return false;
    if (by === 0) continue;
    const [one, other] = [(low - at) / by, (high - at) / by];
    from = Math.max(from, Math.min(one, other));
    to = Math.min(to, Math.max(one, other));
  }
  return from < to;
}
