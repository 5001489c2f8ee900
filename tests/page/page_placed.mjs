// Where things stand in the drawing, for tests/page/page.mjs: no text is covered.
import { readFileSync, readdirSync } from 'node:fs';
import { fileURLToPath } from 'node:url';
import { layOut, wiringOf } from '../../page/src/layout.js';
import { placesOf, networkScript } from '../../page/src/building.js';
import { drawingOf } from '../../page/src/drawing.js';
import { readTrace } from '../../page/src/trace.js';

// Panes as they are at 500, 900 and 1,400 pixels, and on a projector.
const PANES = [[{ width: 485, height: 468 }, false], [{ width: 885, height: 468 }, false], [{ width: 520, height: 410 }, false],
  [{ width: 744, height: 340 }, true], [{ width: 1916, height: 855 }, true]];

// The letters of what is drawn, and the circles, in its own pixels. Where routers stand close, costs are small, and one zooms in.
function drawnOf(state) {
  const { width, height, roomy, parts } = drawingOf(state);
  const found = pattern => parts.flatMap(({ text }) => [...text.matchAll(pattern)].map(([, ...groups]) => groups));
  const box = ([x, y], wide, high) => ({ left: x - wide / 2, right: x + wide / 2, top: y - high / 2, bottom: y + high / 2 });
  const circle = ([x, y, size]) => ({ x: Number(x), y: Number(y), size: Number(size) });
  const routers = found(/<circle cx="(\S+)" cy="(\S+)" r="(\S+)"\/>\s*(?:<circle class="owner"|<text)/g).map(circle);
  const plates = found(/transform="translate\((\S+) (\S+)\)"[^]*?class="plate" r="(\S+)"/g).map(circle);
  const labels = found(/class="prefix" x="(\S+)" y="(\S+)">(.*?)</g).map(([x, y, text]) => ({ text, ...box([Number(x), Number(y)], 6 * text.length, 10) }));
  const costs = found(/<text x="(\S+)" y="(\S+)" font-size="(?:12|8.5)">(\d+)</g).map(([x, y, text]) => ({ text, ...box([Number(x), Number(y)], 7, 9) }));
  const lines = found(/class="wire[^"]*" d="M(\S+) (\S+)L(\S+) (\S+)"/g).map(numbers => numbers.map(Number));
  return { width, height, routers, plates, labels, costs: roomy ? costs : [], lines };
}
const isHit = ({ left, right, top, bottom }, { x, y, size }) =>
  Math.hypot(x - Math.max(left, Math.min(x, right)), y - Math.max(top, Math.min(y, bottom))) < size;
const meets = (a, b) => a.left < b.right && b.left < a.right && a.top < b.bottom && b.top < a.bottom;
// Points of a line, close together.
const isCrossed = (box, [ax, ay, bx, by]) => Array.from({ length: 201 }, (_, at) => at / 200)
  .some(part => isHit(box, { x: ax + part * (bx - ax), y: ay + part * (by - ay), size: 1 }));

// What is covered or cut off, in words.
function faultsOf({ width, height, routers, plates, labels, costs, lines }) {
  const over = (texts, what, circles) => texts.flatMap(text => circles.some(circle => isHit(text, circle)) ? [`${text.text} is under ${what}`] : []);
  const texts = [...labels, ...costs];
  return [...over(labels, 'a metric', plates), ...over(labels, 'a router', routers), ...over(costs, 'a metric', plates),
    ...texts.flatMap((text, at) => texts.slice(0, at).some(other => meets(text, other)) ? [`${text.text} is on another text`] : []),
    ...labels.filter(label => lines.some(line => isCrossed(label, line))).map(({ text }) => `${text} is on a link`),
    ...[...texts, ...plates.map(({ x, y, size }) => ({ text: 'a metric', left: x - size, right: x + size, top: y - size, bottom: y + size }))]
      .filter(({ left, right, top, bottom }) => left < -1 || top < -1 || right > width + 1 || bottom > height + 1).map(({ text }) => `${text} is cut off`)];
}

export function placingCases({ same, traceOf }) {
  const drawer = (trace, script = '') => {
    const wiring = wiringOf(trace), spots = layOut(wiring), shifts = placesOf(script);
    return (step, pane, isLarge) => drawnOf({ trace, wiring, spots, shifts, pane, isLarge, step, since: step - 1, chosen: null, guesses: new Map(), checks: [] });
  };
  const everywhere = (name, script) => {
    const trace = traceOf(script), { length } = trace.steps, drawn = drawer(trace, script), faults = [];
    for (const [pane, isLarge] of PANES) for (const step of [0, Math.floor(length / 2), length - 1]) {
      for (const fault of faultsOf(drawn(step, pane, isLarge))) faults.push(`${name}, ${pane.width} pixels${isLarge ? ', large' : ''}: ${fault}`);
    }
    return [...new Set(faults)];
  };
  const of = folder => {
    const path = fileURLToPath(new URL(`../../examples/${folder}`, import.meta.url));
    return readdirSync(path).filter(name => name.endsWith('.lab')).map(name => [name, readFileSync(path + name, 'utf8')]);
  };
  const scripts = [...of(''), ...of('lessons/'), ...of('exercises/')];
  const made = ['ring', 'line', 'star', 'one link', 'all to all'].flatMap(shape => [2, 3, 4, 5, 6].map(many => [`${shape} of ${many}`, `${networkScript(shape, many)}rounds 2 0 15000\n`]));
  return {
    'no text of the drawing is covered': () => {
      same('faults', [...scripts, ...made].flatMap(([name, script]) => everywhere(name, script)), []);
      return `: ${scripts.length + made.length} scripts`;
    },
    // Seven datagrams of each end were lost on a short link: neither number stands on the other's envelope.
    'how many are lost stands free': () => {
      const trace = traceOf(`${networkScript('ring', 5)}rounds 5 0 30000\ncut 4\nrounds 7 135000 30000\n`), wiring = wiringOf(trace), step = trace.steps.length - 1;
      const since = trace.steps.findLastIndex(({ record }) => record.line === 20), view = { trace, wiring, spots: layOut(wiring), shifts: [], step, since, chosen: null };
      const marks = pane => drawingOf({ ...view, pane }).parts.map(({ text }) => text).filter(text => /class="pile lost/.test(text)).map(text => {
        const [, left, top] = /<rect x="(\S+)" y="(\S+)" width="18"/.exec(text).map(Number), [, x, y, side] = /<text x="(\S+)" y="(\S+)" class="(.*?)">×7</.exec(text);
        const number = side === 'before' ? { left: x - 14, right: Number(x) } : { left: Number(x), right: Number(x) + 14 };
        return { envelope: { left, top, right: left + 18, bottom: top + 12 }, number: { ...number, top: y - 4, bottom: Number(y) + 4 } };
      });
      for (const pane of [{ width: 650, height: 235 }, { width: 520, height: 410 }]) {
        const [one, other, ...more] = marks(pane);
        same('how many marks', more.length, 0);
        for (const [a, b] of [[one, other], [other, one]]) same(`at ${pane.width} pixels`, [meets(a.number, b.envelope), meets(a.number, a.envelope)], [false, false]);
      }
    },
    // A square: its links leave each corner at right angles, so metrics stand outside of it in a room, and at the upper right elsewhere.
    'metrics stand where no link is': () => {
      const trace = traceOf(`${networkScript('ring', 4)}rounds 3 0 15000\n`), step = trace.steps.length - 1;
      const sides = isLarge => {
        const { routers, plates } = drawer(trace)(step, { width: 700, height: 500 }, isLarge);
        return plates.map(({ x, y }, router) => [Math.sign(x - routers[router].x), Math.sign(y - routers[router].y)].join());
      };
      same('in a room', sides(true), ['-1,-1', '1,-1', '1,1', '-1,1']);
      same('elsewhere', sides(false), Array(4).fill('1,-1'));
    },
  };
}
