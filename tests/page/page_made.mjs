// Networks that are made, for tests/page/page.mjs: from lists of links and GraphML, what stays where it is as they grow, and large ones.
import { layOut, isDrawn, keptSpots, notDrawn, fitted, wiringOf } from '../../page/src/layout.js';
import { networkFrom, namesFor } from '../../page/src/edges.js';
import { joined, mostOf, namesOf, networkScript, SHAPES } from '../../page/src/building.js';
import { without } from '../../page/src/removing.js';
import { matrixOf } from '../../page/src/tables.js';
import { verdictOf } from '../../page/src/forwarding.js';
import { minutesOf, readTrace } from '../../page/src/trace.js';
import { begunAt, branched } from '../../page/src/branching.js';
import { losing } from '../../page/src/losing.js';
import { passingsOf } from '../../page/src/losses.js';
import { describe } from '../../page/src/texts.js';

// As NetworkX writes it.
const GRAPHML = `<?xml version='1.0' encoding='utf-8'?>
<graphml xmlns="http://graphml.graphdrawing.org/xmlns">
  <key id="d1" for="edge" attr.name="weight" attr.type="long"/>
  <key id="d0" for="node" attr.name="label" attr.type="string"/>
  <graph edgedefault="undirected">
    <node id="0"><data key="d0">Bonn</data></node>
    <node id="1"><data key="d0">K&#246;ln &amp; Deutz</data></node>
    <node id="2"/>
    <edge source="0" target="1"><data key="d1">3</data></edge>
    <!-- <edge source="9" target="9"/> -->
    <edge source="1" target="2"/>
  </graph>
</graphml>
`;

export function madeCases({ ran, same, traceOf, three }) {
  // The events of some lines as those of one line `run`, as its trace has them.
  const runAs = (events, before = '') => {
    const script = `${three}${before}run 60000 7\n`, first = `${three}${before}`.split('\n').length, records = ran(`${three}${events}`, '--trace').split('\n').filter(Boolean).map(text => JSON.parse(text));
    const own = records.map(record => record.line < 10 ? record : { ...record, line: first });
    return { script, trace: readTrace([...own, { line: first, record: 'run', until: 60000, seed: 7 }].map(record => `${JSON.stringify(record)}\n`).join(''), script) };
  };
  const linksOf = script => { const trace = traceOf(script), { routers } = trace.steps[0]; return [...trace.links].sort(([a], [b]) => a - b).map(([, ends]) => ends.map(({ router, iface }) => `${trace.names.get(router) ?? router} ${routers[router].interfaces[iface].cost}`).join(', ')); };
  const faultOf = text => networkFrom(text).fault;
  return {
    'a network from a list of links': () => {
      const { script } = networkFrom('# Cities\nBonn Berlin 3\n\nBerlin -- Prague  # by train\nPrague, Bonn, 15\r\nBonn\tBerlin\n');
      same('links and costs', linksOf(script), ['Bonn 3, Berlin 3', 'Berlin 1, Prague 1', 'Bonn 15, Prague 15', 'Bonn 1, Berlin 1']);
      same('names', [...namesOf(script).values()], ['Bonn', 'Berlin', 'Prague']);
      same('names that no script may have', namesFor(['Bonn', '7', 'São Paulo', 'quiet', 'R7', 'a b', 'a-b']), ['Bonn', 'R7-2', 'Sao-Paulo', 'Rquiet', 'R7', 'a-b-2', 'a-b']);
    },
    'a network from GraphML': () => {
      const { script } = networkFrom(GRAPHML);
      same('links and costs', linksOf(script), ['Bonn 3, Koln-Deutz 3', 'Koln-Deutz 1, R2 1']);
      same('a node alone', linksOf(networkFrom('<graphml><graph><node id="a"/></graph></graphml>').script), ['a 1']);
    },
    'a list that is wrong is refused with its line': () => {
      same('words', faultOf('a b\na b c d\n'), 'line 2: a line is two names, and perhaps a cost');
      same('a cost', [faultOf('a b 16'), faultOf('\na b x'), faultOf('a b 0')], ['line 1: the cost 16 is not 1 to 15', 'line 2: the cost x is no whole number', 'line 1: the cost 0 is not 1 to 15']);
      same('itself', faultOf('a b\nb b'), 'line 2: a link joins b with itself');
      same('nothing', [faultOf(''), faultOf('# none\n')], Array(2).fill('there is no router in it'));
      same('too many', faultOf(Array.from({ length: 257 }, (_, at) => `hub r${at}`).join('\n')), 'line 257: hub has more than 256 links');
      same('no node', faultOf(GRAPHML.replace('target="2"', 'target="7"')), 'line 11: an edge of 7, and no node 7');
      same('a cost in it', faultOf(GRAPHML.replace('>3<', '>2.5<')), 'line 9: the cost 2.5 is no whole number');
      same('not closed', faultOf(GRAPHML.replace('<node id="2"/>', '<node id="2">')), 'line 12: </graph> closes <node> of line 8');
      same('cut off', faultOf(GRAPHML.split('\n').slice(0, 9).join('\n')), 'line 5: <graph> is not closed');
      same('no XML', [faultOf('<graphml>\n<node id=a>\n'), faultOf('<html></html>'), faultOf('<graphml/>text')], ['line 2: this is no XML', 'line 1: it has <html> and not <graphml>', 'line 1: this is no XML']);
    },
    // A ring of five gets a link, then a router; then one goes. All that stays is where it was.
    'places stay': () => {
      const wired = script => { const trace = traceOf(script); return { script, trace, wiring: wiringOf(trace) }; }, spotsOf = (had, spots, has) => keptSpots(spots, had.trace, had.wiring, has.trace, has.wiring);
      const ring = wired(networkScript('ring', 5)), spots = layOut(ring.wiring);
      const across = wired(joined(ring.script, 0, 2, 1).script), second = wired(joined(ring.script, 0, 1, 1).script), grown = wired(joined(ring.script, 0, 5, 1).script);
      same('with a link more', spotsOf(ring, spots, across), spots);
      same('with a second link of two', [spotsOf(ring, spots, second).slice(0, 5), spotsOf(ring, spots, second).length], [spots, 6]);
      const more = spotsOf(ring, spots, grown), far = more.slice(0, 5).map(({ x, y }) => Math.hypot(x - more[5].x, y - more[5].y));
      same('with a router more', [more.slice(0, 5), far.every(distance => distance > 0.8), Math.abs(far[0] - 1) < 1e-9], [spots, true, true]);
      const { script } = without(grown.trace, grown.script, 'router 2'), less = wired(script);
      same('with one less', spotsOf(grown, more, less), more.filter((_, router) => router !== 2));
      same('another network', spotsOf(ring, spots, wired(networkScript('star', 5))), null);
    },
    // R0 sends at 0 s what comes 20 ms later, and what R1 sends then comes to R0 alone: lost is the other once its link's time is over.
    'what a run does': () => {
      const events = 'tick 0 0 5\ndeliver 4 1 0 20\ntick 1 1000 6\ndeliver 5 0 0 1020\ntick 2 1500 9\ntick 2 2500 9\n', { script, trace } = runAs(events, 'link 1 1000\n');
      same('what it says', describe(trace.steps.at(-1).record, trace.names), 'a run until 60.000 s, made by chance of 7');
      same('lost at', trace.datagrams.map(({ datagram, lostAt }) => `${datagram} ${trace.steps[lostAt]?.record.now ?? '-'}`).slice(4, 7), ['4 -', '5 -', '6 2500']);
      same('without a time of the link', runAs(events).trace.datagrams.map(({ lostAt }) => lostAt)[6], trace.steps.findIndex(({ record }) => record.now === 1020));
      same('the Requests set out as it begins', trace.datagrams.slice(0, 2).map(({ lostAt }) => trace.steps[lostAt].record.now), [20, 20]);
      const at = trace.steps.findIndex(({ record }) => record.now === 1020);
      same('up to a step', begunAt(trace, script, at), ['tick 0 0 5', 'deliver 4 1 0 20', 'tick 1 1000 6', 'deliver 5 0 0 1020']);
      same('an act there', branched(trace, script, at, ['cut 0']).script.split('\n').slice(10), ['#fork 1', 'tick 0 0 5', 'deliver 4 1 0 20', 'tick 1 1000 6', 'deliver 5 0 0 1020', 'cut 0', '#branch 1', '#| run 60000 7', '']);
      same('a loss', losing(trace, script, 4, 0, 10).why, 'It comes in a run. Choose another SEED, or "link 0 0 50" before it: half of what is sent there is lost then.');
      same('a hear behind it', passingsOf(trace, script.split('\n')).at(-1).below, trace.datagrams.length);
      same('without its link', without(trace, script, 'link 1').script.includes('link 1 1000'), false);
    },
    'minutes beside the slider': () => {
      const trace = traceOf(`${three}rounds 9 0 30000\n`), marks = minutesOf(trace);
      same('them', marks.map(({ minute }) => minute), [1, 2, 3, 4]);
      same('their steps', marks.map(({ step }) => [trace.steps[step].now, trace.steps[step - 1].now]), [1, 2, 3, 4].map(minute => [60000 * minute, 60000 * minute - 30000]));
      same('of a long run', minutesOf(traceOf(`${three}rounds 100 0 30000\n`)).map(({ minute }) => minute), Array.from({ length: 16 }, (_, at) => 3 * (at + 1)));
    },
    // However many there are, all stand in the pane at first.
    'a network comes up whole': () => {
      for (const [shape, count] of [['ring', 64], ['all to all', 17], ['grid', 64], ['star', 64], ['line', 64]]) {
        const trace = traceOf(networkScript(shape, count)), pane = { width: 520, height: 410 }, { width, height, places, radius } = fitted(layOut(wiringOf(trace)), [], pane);
        const near = Math.min(...places.flatMap((a, at) => places.slice(0, at).map(b => Math.hypot(a.x - b.x, a.y - b.y))));
        same(`${shape} of ${count}`, [width, height, near >= 2 * radius], [pane.width, pane.height, true]);
      }
    },
    'shapes that cannot run are not made': () => {
      same('the most', ['ring', 'star', 'all to all'].map(mostOf), [4096, 257, 64]);
      same('interfaces of the middle', SHAPES.star(mostOf('star')).length, 256);
    },
    // Of 300 routers each that ticks has another last moment, and all others stay: as many steps as there are routers.
    'a large network is kept slim': () => {
      const count = 300, timers = { last: 0, regular: 15000, hold: 0, due: null };
      const start = { line: 1, record: 'start', now: 0, routers: Array.from({ length: count }, (_, router) => ({ quiet: false, interfaces: [{ addr: `fe80::${(router + 1).toString(16)}:0`, cost: 1, mtu: 1280, link: router >> 1 }], prefixes: [], timers, routes: [] })), sent: [] };
      const tick = (router, now) => ({ line: 2, record: 'event', router, now, event: { kind: 'tick', word: 0 }, fault: null, notes: [], offers: [], update: null, changes: [], sent: [], timers: { ...timers, last: now }, routes: [], gone: [] });
      const trace = readTrace([start, ...Array.from({ length: count }, (_, router) => tick(router, router + 1)), { line: 3, record: 'say', prints: [''] }].map(record => `${JSON.stringify(record)}\n`).join(''));
      for (const step of [0, 1, 63, 64, 65, 66, 200, 130, 299, 300, 301]) {
        same(`the moments of step ${step}`, trace.steps[step].routers.map(({ timers: { last } }) => last), Array.from({ length: count }, (_, router) => router < step ? router + 1 : 0));
        same(`its own`, [trace.steps[step].now, { ...trace.steps[step] }.routers.length], [Math.min(step, count), count]);
      }
      same('what is the same', trace.steps[10].routers[200] === trace.steps[20].routers[200], true);
    },
    // A trace of 300 routers, as the program would write it: the start, and R0 alone with a route.
    'above 256 routers there are tables and no drawing': () => {
      const timers = { last: 0, regular: 15000, hold: 0, due: null }, routerOf = (_, router) => ({ quiet: false, interfaces: [{ addr: `fe80::${(router + 1).toString(16)}:0`, cost: 1, mtu: 1280, link: router >> 1 }],
        prefixes: router === 0 ? [{ prefix: PREFIX, tag: 0 }] : [], timers, routes: router === 0 ? [{ prefix: PREFIX, metric: 1, tag: 0, gateway: null, until: null, marked: false }] : [] });
      const traceFor = count => readTrace(`${JSON.stringify({ line: 1, record: 'start', now: 0, routers: Array.from({ length: count }, routerOf), sent: [] })}\n`);
      const many = traceFor(300), few = traceFor(256), view = { trace: many, step: 0, since: -1, chosen: null, filter: '' };
      same('whether they are drawn', [isDrawn(many), isDrawn(few), isDrawn(readTrace(''))], [false, true, false]);
      same('what is said', [notDrawn(many), notDrawn(readTrace(''))], ['This network has 300 routers. Above 256 the page shows tables and no drawing.', 'There is no network yet.']);
      same('places', [layOut(wiringOf(many)).length, layOut(wiringOf(few)).length >= 256], [0, true]);
      same('the tables', [(matrixOf(view).text.match(/<th scope="row">/g) ?? []).length, verdictOf(view).text.includes('are dropped: there is no route')], [300, true]);
    },
  };
}
const PREFIX = '2001:db8::/32';
