// Scripts as they are changed by clicks: new networks, routers, links and lines put in.

const address = (router, iface) => `fe80::${(router + 1).toString(16)}:${iface.toString(16)}`;
const upTo = (count, item) => Array.from({ length: count }, (_, number) => item(number));
export const SHAPES = {
  line: count => upTo(count - 1, router => [router, router + 1]),
  ring: count => [...SHAPES.line(count), ...count > 2 ? [[0, count - 1]] : []],
  star: count => upTo(count - 1, router => [0, router + 1]),
  'one link': count => [upTo(count, router => router)],
  grid: count => {
    const wide = Math.ceil(Math.sqrt(count)), isIn = ([, to]) => to < count;
    return upTo(count, router => router).flatMap(router => [...(router + 1) % wide ? [[router, router + 1]] : [], [router, router + wide]]).filter(isIn);
  },
  tree: count => upTo(count - 1, router => [router >> 1, router + 1]),
  // Each router is linked to one before it, and half as many links more are there; another network each time.
  random: count => {
    const below = many => Math.floor(many * Math.random()), found = new Map();
    for (let router = 1; router < count; router++) { const to = below(router); found.set([to, router].join(), [to, router]); }
    for (let more = 0; more < count / 2; more++) {
      const pair = [below(count), below(count)].sort((a, b) => a - b);
      if (pair[0] !== pair[1]) found.set(pair.join(), pair);
    }
    return [...found.values()];
  },
  'all to all': count => SHAPES.star(count).flatMap(([, to]) => upTo(to, from => [from, to])),
};

// The most routers of a shape: a router has at most 256 interfaces, and what has many links would be a long script.
const MOST_ROUTERS = { star: 257, 'all to all': 64 };
export const mostOf = shape => MOST_ROUTERS[shape] ?? 4096;

// The script of a new network of that shape: costs are 1, and router 0 owns a prefix.
export function networkScript(shape, count) {
  return networkOf({ names: Array(count).fill(''), links: SHAPES[shape](count).map(routers => ({ routers, cost: 1 })) });
}

// The script of a network of routers, by their names or without, and links, each with its routers and its cost. The first owns a
// prefix; one without links gets a link of its own. The remark says what to do next.
export function networkOf({ names, links }) {
  const lines = ['# Press "round": every router sends its update, and all arrive.',
    '# Click a link to cut it, a router to do more, and a metric to ask why.'], owned = names.map(() => []);
  links.forEach(({ routers, cost }, link) => routers.forEach(router => owned[router].push([cost, link])));
  let free = links.length;
  names.forEach((name, router) => {
    if (owned[router].length === 0) owned[router].push([1, free++]);
    lines.push(`router ${name}`.trim(), ...owned[router].map(([cost, link], iface) => `iface ${address(router, iface)} ${cost} 1280 ${link}`));
    if (router === 0) lines.push('own 2001:db8::/32 0');
  });
  return [...lines, 'cold 0', ''].join('\n');
}

// The link of a line `iface`, its last word, and the line with another.
const ENDS_WITH_LINK = /^(iface [^#]*?)(\d+)(\s*(?:#.*)?)$/;
export const linkIn = line => Number(ENDS_WITH_LINK.exec(line)?.[2] ?? NaN);
export const withLink = (line, link) => line.replace(ENDS_WITH_LINK, `$1${link}$3`);
export const linksIn = lines => lines.filter(line => line.startsWith('iface ')).map(linkIn);

// For each router of a script its name, if it has one, and where its line, the end of its lines and its interfaces are.
function sections(lines) {
  const found = [], cold = lines.findIndex(line => line.trim().startsWith('cold'));
  lines.slice(0, cold < 0 ? lines.length : cold).forEach((line, at) => {
    const [word, ...rest] = line.trim().split(' #')[0].split(' ');
    const name = rest.find(text => text !== 'quiet' && /^[a-z]/i.test(text));
    if (word === 'router') found.push({ at, end: at + 1, ifaces: [], name });
    else if (/^(iface|own)$/.test(word) && found.length > 0) found.at(-1).end = at + 1;
    if (word === 'iface') found.at(-1)?.ifaces.push(at);
  });
  return found;
}

// The names of routers by their numbers, and the script with another name of one.
export const namesOf = script =>
  new Map(sections(script.split('\n')).flatMap(({ name }, router) => name ? [[router, name]] : []));
export function withName(script, router, name) {
  const lines = script.split('\n'), { at } = sections(lines)[router], [head] = /^\s*router( quiet)?/.exec(lines[at]);
  return lines.with(at, `${head} ${name}`.trim()).join('\n');
}

// A script with lines changed: each change takes `remove` lines out at an index and puts others there. `origins` has for
// each line the number of that which it was, or stands for; 0 for one that is new.
export function spliced(script, changes) {
  const lines = script.replace(/\n*$/, '').split('\n').map((text, at) => ({ text, origin: at + 1 }));
  for (const { at, remove = 0, lines: added } of changes.toSorted((a, b) => b.at - a.at)) {
    const origin = remove > 0 ? at + 1 : 0;
    lines.splice(at, remove, ...added.map(text => ({ text, origin })));
  }
  return { script: [...lines.map(({ text }) => text), ''].join('\n'), origins: lines.map(({ origin }) => origin) };
}

// The script with a new link between two routers, or to a new one, the next; null where there is none such. In a network
// that has run already the link comes up now: it is cut from the start, and mended behind `line`.
export function joined(script, from, to, cost, line = null) {
  const lines = script.split('\n'), routers = sections(lines), isNew = to === routers.length;
  if (!routers[from] || from === to || !(routers[to] || isNew)) return null;
  const link = Math.max(-1, ...linksIn(lines)) + 1, ifaceOf = (router, iface) => `iface ${address(router, iface)} ${cost} 1280 ${link}`;
  const added = [to, from].map(router => {
    const { end, ifaces } = routers[router] ?? {};
    return ifaces ? { at: end, lines: [ifaceOf(router, ifaces.length)] }
      : { at: routers.at(-1).end, lines: ['router', ifaceOf(router, 0)] };
  });
  const cold = lines.findIndex(text => text.startsWith('cold')), isRunning = line !== null && cold >= 0 && line > cold + 1;
  const late = isRunning ? [{ at: cold + 1, lines: [`cut ${link}`] }, { at: line, lines: [`mend ${link}`] }] : [];
  return { ...spliced(script, [...added, ...late]), link, isLate: isRunning };
}

// Where the branches of a script begin (`branching.js`), and how many lines it has before them: new lines go behind those.
export const BRANCH = /^#branch (\d+)$/;
export const ownLines = script => {
  const lines = script.replace(/\n*$/, '').split('\n'), end = lines.findIndex(line => BRANCH.test(line));
  return end < 0 ? lines.length : end;
};

// The script with lines put in: at the end, or behind a line, with what follows or without; and the first's number.
export function inserted(script, added, place, line) {
  const count = ownLines(script), at = place === 'end' ? count : line;
  const rest = place === 'branch' ? [{ at, remove: count - at, lines: [] }] : [];
  return { ...spliced(script, [...rest, { at, lines: added }]), first: at + 1 };
}

// ---- Places of routers ----
// How far routers were moved from where they would stand, in lengths of a link: a remark that the page writes and reads.
const PLACES = /^#places .*\n?/gm;
export const placesOf = script => {
  const [text = ''] = script.match(PLACES) ?? [], shifts = [];
  for (const [, router, x, y] of text.matchAll(/(\d+) (-?[\d.]+) (-?[\d.]+)/g)) shifts[router] = { x: Number(x), y: Number(y) };
  return shifts;
};
export function withPlaces(script, shifts) {
  const bare = script.replace(PLACES, ''), told = shifts.flatMap((shift, router) =>
    shift && (shift.x || shift.y) ? [`${router} ${shift.x.toFixed(2)} ${shift.y.toFixed(2)}`] : []);
  return told.length === 0 ? bare : `${bare.replace(/\n*$/, '\n')}#places ${told.join(', ')}\n`;
}
