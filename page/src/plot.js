// The staircase: the metrics of a prefix over time at each router, in one plot.
import { nameOf } from './trace.js';
import { UNREACHABLE } from './datagrams.js';
import { metricRuns } from './walks.js';
import { classes, html } from './markup.js';

const BOX = { width: 460, height: 150, left: 40, right: 8, top: 8, bottom: 30 };
// So many routers at most are told apart; of more there is the one that was asked about.
const MOST_LINES = 8;

// The runs of a trace never change.
const keptRuns = new WeakMap();
function runsOf(trace, router, prefix) {
  if (!keptRuns.has(trace)) keptRuns.set(trace, new Map());
  const kept = keptRuns.get(trace), key = `${router} ${prefix}`;
  if (!kept.has(key)) kept.set(key, metricRuns(trace, router, prefix));
  return kept.get(key);
}

// Where steps stand along the plot: by their time, in seconds, where it passes, else one beside another.
export function axisOf({ steps }) {
  const times = steps.map(({ now }) => now / 1000), isTimed = new Set(times).size > 3;
  const values = isTimed ? times : steps.map((_, step) => step + 1), from = values[0] ?? 0, to = Math.max(values.at(-1) ?? 0, from + 1);
  const least = (to - from) / 6, power = 10 ** Math.floor(Math.log10(least)), gap = Math.max(isTimed ? 0 : 1, [1, 2, 5, 10].find(many => many * power >= least) * power);
  const first = Math.ceil(from / gap), marks = Array.from({ length: Math.floor(to / gap) - first + 1 }, (_, index) => Number(((first + index) * gap).toPrecision(9)));
  return { values, from, to, marks, name: isTimed ? 'seconds' : 'step' };
}

export function plotOf({ trace, step, checks = [] }, router, prefix) {
  if (checks.some(({ isBlank }) => isBlank)) return '';
  const { width, height, left, right, top, bottom } = BOX, { values, from, to, marks, name } = axisOf(trace), end = width - right, floor = height - bottom;
  const x = value => left + (end - left) * (value - from) / (to - from), y = metric => floor - (floor - top) * metric / UNREACHABLE;
  const at = run => (run ? x(values[run.step]) : end), rounded = number => Number(number.toFixed(1));
  const levels = (runs, member) => runs.filter((run, index) => run[member] !== runs[index - 1]?.[member]);
  const stairs = (all, member) => levels(all, member).map((run, index, runs) => {
    const joins = index > 0 && runs[index - 1][member] !== undefined, level = rounded(y(run[member] ?? 0));
    return run[member] === undefined ? '' : `${joins ? 'V' : `M${rounded(at(run))} `}${level}H${rounded(at(runs[index + 1]))}`;
  }).join('');
  const all = trace.ends.map((_, one) => one), shown = all.length > MOST_LINES ? [router] : [...all.filter(one => one !== router), router];
  const lines = shown.map(one => html`<path class="${classes(`line-${one % MOST_LINES}`, one === router ? 'held' : 'other')}"
    d="${stairs(runsOf(trace, one, prefix), 'metric')}"><title>${nameOf(trace, one)}</title></path>`);
  const rules = [1, 4, 8, 12, 16].map(metric => html`<path class="rule" d="M${left} ${y(metric)}H${end}"/><text x="${left - 12}" y="${y(metric)}">${metric}</text>`);
  const names = shown.toSorted((a, b) => a - b).map((one, index) => html`${index > 0 ? ', ' : ''}<b class="line-${one % MOST_LINES}">${nameOf(trace, one)}</b>`);
  return html`<figure><svg id="plot" role="img" aria-label="the metric for ${prefix} over time" viewBox="0 0 ${width} ${height}">${rules}
    ${marks.map(mark => html`<text x="${x(mark)}" y="${floor + 10}">${mark}</text>`)}<text x="${(left + end) / 2}" y="${height - 6}">${name}</text>
    <text transform="translate(10 ${(top + floor) / 2}) rotate(-90)">metric</text>
    <path class="least" d="${stairs(runsOf(trace, router, prefix), 'least')}"/>${lines}
    <path class="here" d="M${rounded(x(values[step]))} ${top - 4}V${floor + 4}"/></svg>
    <figcaption>The metric of ${names}; dashed, the shortest path of ${nameOf(trace, router)}; upright, this step.</figcaption></figure>`;
}
