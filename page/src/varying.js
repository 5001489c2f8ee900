// An exercise with other numbers: the same question of other costs, by a seed. What is cheaper stays cheaper.

// Where a line of a script has a cost, and where a remark tells one.
const COSTS = [/^(\s*iface \S+ )(\d+)/, /^(cost \S+ \S+ \S+ )(\d+)/, /^(costs \S+ \S+ )(\d+)/];
const TOLD = [/\b(costs? )(\d+)/g, /\b(all else )(\d+)/g, /(, and )(\d+)(?= at \w)/g];
const MOST = 15;

// Numbers that look like chance, always the same for a seed.
function chance(seed) {
  let state = Number(seed) >>> 0;
  return below => {
    state = Math.imul(state ^ state >>> 15, 0x2c1b3c6d) + 0x6d2b79f5 >>> 0;
    const mixed = Math.imul(state ^ state >>> 12, 0x297a2d39);
    return ((mixed ^ mixed >>> 15) >>> 0) % below;
  };
}

// For each cost of a list another one, in the same order, and not all as before.
function otherCosts(costs, below) {
  const sorted = [...new Set(costs)].sort((a, b) => a - b), most = Math.min(MOST, sorted.at(-1) + 3);
  const all = Array.from({ length: most }, (_, index) => index + 1), isSame = found => found.every((cost, index) => cost === sorted[index]);
  for (;;) {
    const left = [...all];
    while (left.length > sorted.length) left.splice(below(left.length), 1);
    if (!isSame(left)) return new Map(sorted.map((cost, index) => [cost, left[index]]));
  }
}

// The script with other costs, in its lines and in its remarks; its first remark says which seed they are of. A script without costs
// stays as it is.
export function varied(script, seed) {
  const lines = script.split('\n'), costs = lines.flatMap(line => COSTS.flatMap(form => form.exec(line)?.[2] ?? []).map(Number));
  if (costs.length === 0) return script;
  const others = otherCosts(costs, chance(seed)), change = (all, before, cost) => `${before}${others.get(Number(cost)) ?? cost}`;
  const changed = lines.map(line => (line.startsWith('#') ? TOLD : COSTS).reduce((text, form) => text.replace(form, change), line));
  return [`${changed[0]}${changed[0].startsWith('#') ? ` Its costs are of seed ${seed}.` : ''}`, ...changed.slice(1)].join('\n');
}
