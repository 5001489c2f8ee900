// Words and sizes of what is said, for tests/page/page.mjs, by hand: names in captions, all metrics between two steps, long prefixes, times, and
// what can be done with a link that is out.
import { readFileSync } from 'node:fs';
import { fileURLToPath } from 'node:url';
import { withDrawnNames } from '../../page/src/lessons.js';
import { networkScript } from '../../page/src/building.js';
import { layOut, wiringOf } from '../../page/src/layout.js';
import { drawingOf } from '../../page/src/drawing.js';
import { detailOf } from '../../page/src/detail.js';
import { shortened, tablesOf } from '../../page/src/tables.js';
import { describe } from '../../page/src/texts.js';

const COURSE = readFileSync(fileURLToPath(new URL('../../examples/lessons/course.txt', import.meta.url)), 'utf8');

export function saidCases({ same, traceOf, three }) {
  const plain = ({ text }) => text.replace(/<[^>]*>/g, ' ').replace(/\s+/g, ' ').trim();
  const viewOf = trace => ({ trace, step: trace.steps.length - 1, chosen: null, typed: {}, place: 'end', shifts: [], wiring: wiringOf(trace) });
  return {
    'names of routers in captions': () => {
      const nameOf = number => ['Bonn', 'R1', 'R2'][number];
      same('them', ['Router 1 hears router 0.', 'From routers 0, 1 and 2 on.', 'After 2 rounds 64 routers know.', 'By routers 1 to 2.'].map(text => withDrawnNames(text, nameOf)),
        ['R1 hears Bonn.', 'From Bonn, R1 and R2 on.', 'After 2 rounds 64 routers know.', 'By R1 to R2.']);
      same('in a path that was expected', describe({ record: 'refused', why: 'expected path 1 2001:db8::1 loops found arrives' }), 'expected path R1 2001:db8::1 loops found arrives');
    },
    // The owner withdraws the prefix and has it again, so R1 goes from 2 to 16 and back: the table of all of that shows what was between.
    'all metrics between two steps': () => {
      const script = `${three}round 0\ndrop 0 20000 2001:db8::/32\nround 30000\ngain 0 40000 2001:db8::/32 0\nround 60000\ncost 1 0 70000 5\nround 90000\n`, trace = traceOf(script);
      const wasOf = since => /data-was="([^"]*)"/.exec(tablesOf({ ...viewOf(trace), since })[1].text)?.[1], stepOf = line => trace.steps.findLastIndex(({ record }) => record.line === line);
      same('since the first round', wasOf(stepOf(10)), '2→16→2');
      same('since the last', wasOf(stepOf(15)), '2');
    },
    'long prefixes differ at their ends': () => {
      same('them', ['2001:db8::/32', '2001:db8:10:20:30::/80', '2001:db8:10:20:31::/80'].map(shortened), ['2001:db8::/32', '2001:db8…:20:30::/80', '2001:db8…:20:31::/80']);
    },
    // R1 heard of the prefix at 0, so its route has 90 s left at 90,000 ms, and a tenth is told.
    'the seconds that are left': () => {
      const leftAt = moment => /in [\d.]+ s/.exec(plain(tablesOf(viewOf(traceOf(`${three}round 0\ntick 1 ${moment} 0\n`)))[1]))?.[0];
      same('them', [90_000, 89_999, 89_750].map(leftAt), ['in 90 s', 'in 90 s', 'in 90.3 s']);
    },
    'a link that is out': () => {
      const buttonsOf = lines => { const trace = traceOf(three + lines); return [...detailOf({ ...viewOf(trace), chosen: 'iface 0 0' }).text.matchAll(/<button[^>]*>([^<]*(?:the link|it up|it down))</g)].map(([, text]) => text); };
      same('whole', buttonsOf('round 0\n'), ['cut the link', 'take it down', 'remove the link']);
      same('cut', buttonsOf('cut 0\n'), ['mend the link', 'remove the link']);
      same('down', buttonsOf('down 0 1000\n'), ['bring it up', 'remove the link']);
    },
    'names in a drawing are of one size': () => {
      const script = networkScript('line', 4).split('\n').map((line, at) => line === 'router' ? `router ${['a', 'edge', 'Hof', 'x'][at % 4]}${at}` : line).join('\n'), trace = traceOf(script);
      const { parts } = drawingOf({ ...viewOf(trace), spots: layOut(wiringOf(trace)), pane: { width: 900, height: 400 } });
      const sizes = parts.flatMap(({ text }) => [...text.matchAll(/class="router[^]*?<text[^>]*font-size="([\d.]+)"/g)].map(([, size]) => size));
      same('how many, and sizes', [sizes.length, new Set(sizes).size], [4, 1]);
    },
    // Two routers that count are lesson 2, and a link that goes down and a good-bye come before triggered updates.
    'the order of the course': () => {
      const names = COURSE.split('\n').filter(line => line.startsWith(' ')).map(line => line.trim()), at = name => names.indexOf(name);
      same('lesson 2', names[1], '32-two-routers');
      same('the order', at('28-link-down') < at('08-triggered') && at('27-good-bye') < at('08-triggered') && at('29-horizons') < at('11-ring-of-three'), true);
    },
  };
}
