// Where packets go, for tests/page/page.mjs: ways that are worked out by hand, and a plain computation over the lines of `print`.
import { readFileSync } from 'node:fs';
import { fileURLToPath } from 'node:url';
import { named, prefixInView } from '../../page/src/trace.js';
import { pathOf, targetIn, waysOf } from '../../page/src/packets.js';
import { joined, networkScript } from '../../page/src/building.js';
import { oneResponse } from '../../page/src/datagrams.js';
import { layOut, wiringOf } from '../../page/src/layout.js';
import { drawingOf } from '../../page/src/drawing.js';
import { detailOf } from '../../page/src/detail.js';
import { printed } from '../../page/src/tables.js';

const PREFIX = '2001:db8::/32';
const read = name => readFileSync(fileURLToPath(new URL(`../../examples/${name}.lab`, import.meta.url)), 'utf8');

// `three` is a line of three routers, of which R0 owns the prefix.
export function packetCases({ same, traceOf, three }) {
  const wayAt = (trace, step, router, target = PREFIX) => {
    const { way, hops, ...more } = pathOf(trace, trace.steps.at(step), router, target);
    return [way, ...Object.values(more).filter(value => value !== null && value !== undefined)];
  };
  const prints = trace => [...trace.steps.keys()].filter(step => trace.steps[step].record.record === 'print');
  // A ring of three with R3 at R1: R0 withdraws, and in the round after that R1 and R2 believe each other.
  const looped = () => traceOf(`${joined(networkScript('ring', 3), 1, 3, 1).script}rounds 3 0 15000\ndrop 0 40000 ${PREFIX}\nround 60000\n`);
  return {
    // counting.lab: at the first `print` R3 has 3 by R1, which has 2 by R0. At the second R1 has 5 by R2, R2 has 4 by R3, and R3 its
    // old 3 by R1. At the sixth R1 and R2 have 16, and R3 has 15 by R1.
    'packets while a ring counts': () => {
      const trace = traceOf(read('counting')), at = prints(trace);
      same('before', [0, 1, 2, 3].map(router => wayAt(trace, at[0], router)), [[[0], 'delivered'], [[1, 0], 'delivered'], [[2, 1, 0], 'delivered'], [[3, 1, 0], 'delivered']]);
      for (const turn of [1, 2, 3, 4]) {
        same(`at print ${turn}`, [1, 2, 3].map(router => wayAt(trace, at[turn], router)), [[[1, 2, 3, 1], 'loops', 0], [[2, 3, 1, 2], 'loops', 0], [[3, 1, 2, 3], 'loops', 0]]);
      }
      same('at its end', [1, 2, 3].map(router => wayAt(trace, at[5], router)), [[[1], 'noRoute'], [[2], 'noRoute'], [[3, 1], 'noRoute']]);
    },
    // R3 hands them to R1, and R1 and R2 to each other: the loop begins at the second hop.
    'a loop that begins later': () => {
      const trace = looped(), wiring = wiringOf(trace), step = trace.steps.length - 1;
      same('the way', wayAt(trace, -1, 3), [[3, 1, 2, 1], 'loops', 1]);
      same('before', wayAt(trace, trace.steps.findIndex(({ record }) => record.event?.kind === 'drop') - 1, 3), [[3, 1, 0], 'delivered']);
      const state = { trace, step, wiring, spots: layOut(wiring), pane: { width: 500, height: 400 }, shifts: [], typed: {}, place: 'end', chosen: `packet 3 ${PREFIX}` };
      const text = detailOf(state).text.replace(/\s+/g, ' '), drawn = drawingOf(state).parts.map(part => part.text).join('');
      same('what is told', [text.includes('a loop from R1 on'), text.includes('<b>R3 → R1 → R2 → R1</b>'), [...text.matchAll(/<td>R\d → R\d<\/td>/g)].length], [true, true, 3]);
      same('what is red', [...drawn.matchAll(/class="packet( astray)?"/g)].map(([, astray]) => astray ?? ''), ['', ' astray', ' astray']);
      same('what is no walk', drawn.includes('class="hop '), false);
    },
    // From R1 and R2 they circle; from R3 they come into that loop; R0, which withdrew the prefix, drops them. Three first hops are drawn.
    'packets from every router': () => {
      const trace = looped(), wiring = wiringOf(trace), step = trace.steps.length - 1;
      same('what becomes of them', waysOf(trace, trace.steps[step], PREFIX).map(({ fate, isLoop, hop }) => [fate, isLoop, hop?.to.router ?? null]),
        [['drop', false, null], ['circle', true, 2], ['circle', true, 1], ['circle', false, 1]]);
      const state = { trace, step, wiring, spots: layOut(wiring), pane: { width: 500, height: 400 }, shifts: [], typed: {}, place: 'end', chosen: `packet 3 ${PREFIX}`, isFromAll: true };
      same('what is told', /<p id="fates">(.*?)<\/p>/s.exec(detailOf(state).text)[1].replace(/\s+/g, ' '), `Packets for ${PREFIX}: from R1, R2, R3 they <b>circle</b>; from R0 they <b>are dropped</b>.`);
      same('what is drawn', [...drawingOf(state).parts.map(part => part.text).join('').matchAll(/class="packet( astray)?"/g)].map(([, astray]) => astray ?? ''), [' astray', ' astray', '']);
      const cut = traceOf(`${three}rounds 3 0 15000\ncut 0\nround 45000\n`);
      same('over a cut link', waysOf(cut, cut.steps.at(-1), PREFIX).map(({ fate, isLost }) => [fate, isLost]), [['arrive', false], ['lose', true], ['lose', false]]);
    },
    // Tables know of no cut link and of no router that is down.
    'packets that are lost though tables are sound': () => {
      const trace = traceOf(`${three}rounds 3 0 15000\ncut 0\nround 45000\nmend 0\nsilent 1\nround 60000\n`), last = line => trace.steps.findLastIndex(({ record }) => record.line === line);
      same('at first', wayAt(trace, last(10) - 1, 2), [[2, 1, 0], 'delivered']);
      same('over a cut link', [2, 1].map(router => wayAt(trace, last(12) - 1, router)), [[[2, 1, 0], 'delivered', { thing: 'link 0', hop: 1 }], [[1, 0], 'delivered', { thing: 'link 0', hop: 0 }]]);
      same('by a router that is down', [2, 1, 0].map(router => wayAt(trace, -1, router)), [[[2, 1, 0], 'delivered', { thing: 'router 1', hop: 0 }], [[1, 0], 'delivered', { thing: 'router 1', hop: -1 }], [[0], 'delivered']]);
      const state = { trace, step: last(12) - 1, wiring: wiringOf(trace), typed: {}, place: 'end', chosen: `packet 2 ${PREFIX}` };
      same('what is told', /<p id="lost".*?>(.*?)<\/p>/s.exec(detailOf(state).text)[1].replace(/\s+/g, ' '), 'But it is lost on hop 2, R1 → R0: link 0 was cut in line 11, and no table knows that.');
    },
    // lesson 13: the link between a and b is cut, and b goes on to use it; later b and c believe each other; in the end all arrives.
    'the lesson on loops and black holes': () => {
      const script = read('lessons/13-loops-and-black-holes'), trace = traceOf(script), lines = script.split('\n');
      const before = (line, router) => wayAt(trace, trace.steps.findLastIndex(({ record }) => record.line < line), router);
      const cut = lines.indexOf('cut 0') + 2, drop = lines.findIndex(text => text.startsWith('drop')) + 1;
      same('the black hole', before(lines.indexOf('expect b 2001:db8::/32 2', cut) + 1, 1), [[1, 0], 'delivered', { thing: 'link 0', hop: 0 }]);
      same('the loop', [1, 2].map(router => before(lines.indexOf('print b') + 1, router)), [[[1, 2, 1], 'loops', 0], [[2, 1, 2], 'loops', 0]]);
      same('at its end', [1, 2].map(router => wayAt(trace, -1, router)), [[[1, 0], 'delivered'], [[2, 0], 'delivered']]);
      same('it ends healed', trace.steps.at(-1).record.line > drop, true);
    },
    // R1 believes a host that is no router of the network.
    'a next hop that is nobody\'s': () => {
      const trace = traceOf(`${three}liar 1 0 10 fe80::66 ${oneResponse('2001:db8:9::/48', 0, 1)}\n`);
      same('the way', wayAt(trace, -1, 1, '2001:db8:9::1'), [[1], 'nobodys', 'fe80::66']);
      const wiring = wiringOf(trace), state = { trace, step: trace.steps.length - 1, wiring, spots: layOut(wiring), pane: { width: 500, height: 400 }, shifts: [], typed: {}, place: 'end', chosen: 'packet 1 2001:db8:9::1' };
      same('what is told', detailOf(state).text.includes("dropped: the next hop of R1, fe80::66, is nobody's on that link"), true);
      same('the cross', drawingOf(state).parts.some(({ text }) => text.includes('dropped here')), true);
    },
    // R0 owns all addresses, and R2 those of 2001:db8::/32: R1 between them goes by the longer one.
    'the longest prefix': () => {
      const trace = traceOf(`${three.replace(`own ${PREFIX} 0`, 'own ::/0 0').replace('cold 0', `own ${PREFIX} 0\ncold 0`)}rounds 3 0 15000\n`);
      for (const [target, owner] of [['2001:db8::5', 2], ['2001:db8:ffff::/48', 2], [PREFIX, 2], ['2001:db8::/31', 0], ['2001:db9::5', 0], ['::', 0], ['::/0', 0]]) {
        same(`to ${target}`, wayAt(trace, -1, 1, target), [[1, owner], 'delivered']);
      }
      same('the metrics that are shown', ['packet 1 2001:db8::5', 'packet 1 2001:db9::5', 'packet 0 ::1'].map(chosen => prefixInView({ trace, step: trace.steps.length - 1, chosen })), [PREFIX, '::/0', '::/0']);
    },
    'addresses and prefixes': () => {
      for (const text of ['::', '::1', '1::', '2001:db8::1', '1:2:3:4:5:6:7:8', '::/0', 'fe80::/10', '1:2:3::/128']) same(text, targetIn(text), text);
      same('in small letters', targetIn(' 2001:DB8::/32 '), PREFIX);
      for (const text of ['', 'x', '1:2', '1::2::3', '::/129', ':::', '1:2:3:4:5:6:7:8:9', '1:2:3:4:5:6:7::8', 'fe80::1%eth0', '10.0.0.1', '12345::', ':1::', '1:', '::/', '::/1/2', '::1:']) same(text, targetIn(text), null);
      const trace = traceOf(three);
      same('as things', ['packet 0 ::1', 'packet 0 2001:DB8::1', 'packet 9 ::1', 'packet 0', 'packet 0 <b>'].map(text => named(text, trace)?.target ?? null), ['::1', null, null, null, null]);
    },
  };
}

// ---- The plain computation ----
const TARGETS = ['2001:db8::1', '2001:db8:1::7', '2001:0:0:1::5', '1::', '2001:db8:ffff::'];

// An address as a number.
function numberOf(text) {
  const [before, after] = text.split('::').map(part => part.split(':').filter(Boolean)), zeros = Array(8 - before.length - (after?.length ?? 0)).fill('0');
  return BigInt(`0x${[...before, ...zeros, ...after ?? []].map(group => group.padStart(4, '0')).join('')}`);
}

// The ways from each router to each target are those that the lines of `print` give, and the interfaces of the script.
export function checkPackets(same, trace, state, script) {
  const routes = printed(state).split('\n').filter(Boolean).map(line => line.split(' '));
  const interfaces = [];
  for (const line of script.split('\n')) {
    if (line.startsWith('router')) interfaces.push([]);
    if (line.startsWith('iface')) interfaces.at(-1).push(line.split(' '));
  }
  const routerWith = (address, link, not) => interfaces.findIndex((own, router) => router !== not && own.some(([, addr, , , on]) => addr === address && on === link));
  const bestOf = (router, address) => routes.filter(([own, , , metric]) => Number(own) === router && metric !== '16')
    .map(([, prefix, , , , , ...way]) => ({ length: Number(prefix.split('/')[1]), base: numberOf(prefix.split('/')[0]), way }))
    .filter(({ length, base }) => address >> BigInt(128 - length) === base >> BigInt(128 - length)).sort((a, b) => b.length - a.length)[0];
  let hops = 0;
  for (const target of TARGETS) for (const router of trace.ends.keys()) {
    const way = [router], address = numberOf(target);
    let end = null;
    while (end === null) {
      const best = bestOf(way.at(-1), address), [kind, nextHop, , iface] = best?.way ?? [];
      if (!best) end = 'noRoute';
      else if (kind === 'own') end = 'delivered';
      else {
        const to = routerWith(nextHop, interfaces[way.at(-1)][Number(iface)][4], way.at(-1));
        if (to < 0) end = 'nobodys';
        else if (way.push(to) && way.indexOf(to) < way.length - 1) end = 'loops';
      }
    }
    const found = pathOf(trace, state, router, target);
    same(`the way from R${router} to ${target}`, [found.way, found.end], [way, end]);
    hops += found.hops.length;
  }
  return hops;
}

// After 26 rounds every packet of a route arrives, past no router twice.
export function checkHealed(same, trace) {
  const state = trace.steps.at(-1);
  state.routers.forEach(({ table }, router) => {
    for (const { route } of table.values()) if (route.metric < 16) same(`a packet of R${router} for ${route.prefix}`, pathOf(trace, state, router, route.prefix).end, 'delivered');
  });
}
