// The page's modules without a browser: random scripts, run by the program, against what it prints and a plain computation.
//
//     node tests/page/page.mjs PROGRAM [SCRIPTS [SEED [NAME..]]]     all cases, or those that have a NAME in theirs. Of `random scripts` there
//                                                               are SCRIPTS, and of those that are judged as many, but at least JUDGED
//
// A line for each case, `ok NAME` or `FAILED NAME: why`, and last `N passed, M failed`; the exit status is 0 exactly where M is 0.
// Only what a module exports is called; costs, owners and least costs are computed here anew, from the script's lines alone, and the
// entries of datagrams are read from their bytes.
import { execFileSync } from 'node:child_process';
import { mkdtempSync, readFileSync, readdirSync, rmSync, writeFileSync } from 'node:fs';
import { tmpdir } from 'node:os';
import { join } from 'node:path';
import { fileURLToPath } from 'node:url';
import { readTrace, named, nextStop, onTheirWay } from '../../page/src/trace.js';
import { leastCosts, metricRuns, tallyAll, walkOf } from '../../page/src/walks.js';
import { decode, oneResponse, wholeRequest } from '../../page/src/datagrams.js';
import { SHAPES, inserted, joined, namesOf, networkScript, withName } from '../../page/src/building.js';
import { captionsOf, runnable } from '../../page/src/lessons.js';
import { fitted, layOut, wiringOf } from '../../page/src/layout.js';
import { drawingOf } from '../../page/src/drawing.js';
import { timelineOf } from '../../page/src/timeline.js';
import { detailOf, eventOf } from '../../page/src/detail.js';
import { matrixOf, printed, tablesOf } from '../../page/src/tables.js';
import { quizOf } from '../../page/src/quiz.js';
import { LINES, describe, hintOf } from '../../page/src/texts.js';
import { lessonCases } from './page_lessons.mjs';
import { checkHealed, checkPackets, packetCases } from './page_packets.mjs';
import { removalCases } from './page_removing.mjs';
import { placingCases } from './page_placed.mjs';
import { shownCases } from './page_shown.mjs';
import { askingCases } from './page_asking.mjs';
import { verdictCases } from './page_verdict.mjs';
import { checkJudged } from './page_judged.mjs';
import { branchCases } from './page_branches.mjs';
import { pcapCases } from './page_pcap.mjs';
import { exerciseCases } from './page_exercises.mjs';
import { besideCases } from './page_beside.mjs';
import { madeCases } from './page_made.mjs';
import { wordCases } from './page_words.mjs';
import { saidCases } from './page_said.mjs';

const JUDGED = 1000;
const [program, scripts = '30', seed = '1', ...names] = process.argv.slice(2), folder = mkdtempSync(join(tmpdir(), 'page-'));
const sources = fileURLToPath(new URL('../../page/src', import.meta.url));
let random = Number(seed);
const below = count => { random = (random * 1103515245 + 12345) % 2147483648; return Math.floor(random / 65536) % count; };
const pick = list => list[below(list.length)];

// What the program prints; status 1 says that a line is refused.
function ran(script, ...words) {
  writeFileSync(join(folder, 'script.lab'), script);
  try {
    return execFileSync(program, ['lab', ...words, join(folder, 'script.lab')], { encoding: 'utf8', maxBuffer: 1 << 28, stdio: ['ignore', 'pipe', 'ignore'] });
  } catch (fault) {
    if (fault.status !== 1) throw fault;
    return fault.stdout;
  }
}

function same(what, given, wanted) {
  if (JSON.stringify(given) !== JSON.stringify(wanted)) throw new Error(`${what} is ${JSON.stringify(given)} and not ${JSON.stringify(wanted)}`);
}

// ---- Random scripts ----
const PREFIXES = ['2001:db8::/32', '2001:db8:1::/48', '::/0', '2001:0:0:1::/64'];

function randomNetwork() {
  const count = 2 + below(6), interfaces = Array.from({ length: count }, () => []), links = count - 1 + below(4);
  for (let link = 0; link < links; link++) {
    const ends = new Set(link < count - 1 ? [link + 1, below(link + 1)] : [below(count), below(count)]);
    if (below(4) === 0) ends.add(below(count));
    for (const router of ends) interfaces[router].push([1 + below(below(3) === 0 ? 15 : 3), link]);
  }
  const lines = interfaces.flatMap((own, router) => [below(10) === 0 ? 'router quiet' : 'router',
    ...own.map(([cost, link], iface) => `iface fe80::${(router + 1).toString(16)}:${iface} ${cost} 1280 ${link}`),
    ...below(3) === 0 || router === 0 ? [`own ${pick(PREFIXES)} ${below(9)}`] : []]);
  return ['# A random network.', ...lines, 'cold 0'];
}

// A line that does something, at a moment; of a network that was read.
function randomLine({ ends, datagrams, steps }, now) {
  const router = below(ends.length), iface = below(ends[router].length), { prefixes } = steps.at(-1).routers[router];
  const sent = pick(datagrams), hearers = sent ? ends.flat().filter(end => end.link === sent.end.link && end !== sent.end) : [];
  const hearer = hearers.length > 0 ? pick(hearers) : null;
  return pick([
    `tick ${router} ${now} ${below(30000)}`, `round ${now}`, `cost ${router} ${iface} ${now} ${1 + below(9)}`,
    prefixes.length > 0 ? `drop ${router} ${now} ${pick(prefixes).prefix}` : `gain ${router} ${now} ${pick(PREFIXES)} ${below(9)}`, 'print',
    ...hearer ? Array(6).fill(`deliver ${sent.datagram} ${hearer.router} ${hearer.iface} ${now}`) : [], `restart ${router} ${now}`,
    `stranger ${router} ${iface} ${now} fe80::99 521 255 group ${pick([wholeRequest(), '02', '01020000'])}`,
  ]);
}

function randomScript() {
  let lines = randomNetwork(), now = 0;
  for (let at = 0; at < 12; at++) {
    const trace = readTrace(ran(`${lines.join('\n')}\n`, '--trace'));
    const added = Array.from({ length: 6 }, () => randomLine(trace, now += pick([0, 20, 15000, 40000])));
    // What is owned is as the trace has it for the first of them alone.
    lines.push(...added.filter((line, index) => index === 0 || !/^(gain|drop)/.test(line)));
  }
  return `${[...lines, 'print'].join('\n')}\n`;
}

// ---- The plain computation ----
// Costs and owners behind each step, from the lines of the script.
function networksOf(script, { steps }) {
  const lines = script.split('\n'), network = [];
  for (const line of lines.slice(0, lines.findIndex(text => text.startsWith('cold')))) {
    const words = line.split(' ');
    if (words[0] === 'router') network.push({ interfaces: [], owned: new Map() });
    if (words[0] === 'iface') network.at(-1).interfaces.push({ cost: Number(words[2]), link: Number(words[4]) });
    if (words[0] === 'own') network.at(-1).owned.set(words[1], Number(words[2]));
  }
  let now = network;
  return steps.map(({ record }) => {
    const [kind, router, third, fourth, fifth] = lines[record.line - 1].split(' ');
    if (record.record === 'event' && ['cost', 'gain', 'drop'].includes(kind)) {
      now = structuredClone(now);
      if (kind === 'cost') now[router].interfaces[third].cost = Number(fifth);
      if (kind === 'gain') now[router].owned.set(fourth, Number(fifth));
      if (kind === 'drop') now[router].owned.delete(fourth);
    }
    return now;
  });
}

// The least cost from each router, by taking the nearest router next (Dijkstra).
function plainLeast(network, prefix) {
  const cost = network.map(({ owned }) => owned.has(prefix) ? 1 : Infinity), done = new Set();
  for (;;) {
    const next = cost.findIndex((own, router) => !done.has(router) && own < Infinity && cost.every((other, index) => done.has(index) || own <= other));
    if (next < 0) return cost.map(own => Math.min(16, own));
    done.add(next);
    network.forEach(({ interfaces }, router) => interfaces.forEach(({ cost: hop, link }) => {
      if (network[next].interfaces.some(end => end.link === link)) cost[router] = Math.min(cost[router], cost[next] + hop);
    }));
  }
}

const bytesOf = hex => hex.match(/../g).map(digits => parseInt(digits, 16));
// The metrics and tags that a datagram tells of a prefix, given as its 16 bytes and its length.
function toldOf({ bytes }, key) {
  const all = bytesOf(bytes), told = [];
  for (let at = 4; at < all.length; at += 20) if (all[at + 19] < 255 && [...all.slice(at, at + 16), all[at + 18]].join() === key) told.push({ metric: all[at + 19], tag: 256 * all[at + 16] + all[at + 17] });
  return told;
}
const keyOf = prefix => { const all = bytesOf(oneResponse(prefix, 0, 1)); return [...all.slice(4, 20), all[22]].join(); };

// ---- What is compared ----
const textOf = (router, { prefix, metric, tag, gateway }) => `${router} ${prefix} metric ${metric} tag ${tag} ${gateway ? `via ${gateway.next_hop} iface ${gateway.iface} from ${gateway.from}` : 'own'}`;

// The tables at each `print`, as the program prints them.
function checkTables(script, trace) {
  const shown = trace.steps.filter(({ record }) => record.record === 'print').flatMap(({ routers }) => routers.flatMap(({ table }, router) =>
    [...table.values()].map(({ route }) => route).sort((a, b) => keyBytes(a.prefix) < keyBytes(b.prefix) ? -1 : 1).map(route => textOf(router, route))));
  const wanted = ran(script).split('\n').filter(line => line && !line.startsWith('line '));
  same('the tables', shown, wanted);
  const texts = trace.steps.filter(({ record }) => record.record === 'print').map(printed);
  same('the routes as text', texts.join(''), wanted.map(line => `${line}\n`).join(''));
}
const keyBytes = prefix => keyOf(prefix).split(',').map(byte => byte.padStart(3, '0')).join('');

// Each walk: from datagram to datagram, each of which told what was held, at the costs of then, to an owner of then.
function checkWalk(trace, networks, step, router, entry) {
  const walk = walkOf(trace, router, entry), { prefix, metric, tag } = entry.route, key = keyOf(prefix);
  if (metric >= 16) return 0;
  same(`the sum of ${prefix} at ${router}`, [walk.sum, walk.isBacked], [metric, true]);
  let at = router, held = metric, time = step;
  for (const hop of walk.hops) {
    const cost = networks[hop.cameAt][at].interfaces[hop.end.iface].cost;
    same('a hop', [hop.end.router, hop.cost, hop.end.link, hop.datagram.end.link === hop.end.link, hop.cameAt <= time], [at, cost, networks[0][at].interfaces[hop.end.iface].link, true, true]);
    if (!toldOf(hop.datagram, key).some(told => told.metric === held - cost && told.tag === tag)) throw new Error(`datagram ${hop.datagram.datagram} tells no ${held - cost} of ${prefix}`);
    [at, held, time] = [hop.datagram.router, held - cost, hop.datagram.sentAt];
  }
  same('the owner', [walk.owner, held, networks.slice(0, time + 1).some(network => network[at].owned.get(prefix) === tag)], [at, 1, true]);
  return walk.hops.length;
}

function checkWalks(script, trace) {
  const networks = networksOf(script, trace);
  let hops = 0;
  trace.steps.forEach((state, step) => {
    const prefixes = new Set([...PREFIXES, ...state.routers.flatMap(({ table }) => [...table.keys()])]);
    for (const prefix of prefixes) same(`least costs to ${prefix} at step ${step}`, leastCosts(trace, state, prefix), plainLeast(networks[step], prefix));
    state.routers.forEach(({ table, interfaces }, router) => {
      same('the costs', interfaces.map(({ cost }) => cost), networks[step][router].interfaces.map(({ cost }) => cost));
      for (const entry of table.values()) hops += checkWalk(trace, networks, step, router, entry);
    });
    const held = state.routers.flatMap(({ table }) => [...table.values()].filter(({ route }) => route.metric < 16)), tally = tallyAll(trace, state);
    same('the tally', [tally.held, tally.backed], [held.length, held.length]);
  });
  return hops;
}

// What is under way from each end, and every markup, whatever is chosen.
function checkPanes(script, trace) {
  const wiring = wiringOf(trace), spots = layOut(wiring), pane = { width: 500, height: 400 };
  trace.names = new Map(trace.ends.map((_, router) => [router, 'A-long-name-of-a-router']));
  const chosen = [null, ...trace.ends.flatMap((ends, router) => [`router ${router}`, ...ends.map((_, iface) => `iface ${router} ${iface}`), `route ${router} ${PREFIXES[0]}`, `packet ${router} ${PREFIXES[1]}`]), 'datagram 0', `datagram ${trace.datagrams.length - 1}`];
  for (const { x, y } of fitted(spots, [{ x: -9999, y: 9999 }], pane).places) if (!(x > 0 && y > 0)) throw new Error(`a router stands at ${x} ${y}`);
  trace.steps.forEach((_, step) => {
    for (const end of trace.ends.flat()) {
      const others = trace.ends.flat().filter(other => other.link === end.link && other !== end);
      const plain = trace.datagrams.filter(({ end: from, sentAt, lostAt, arrivals }) => from === end && sentAt <= step && step < lostAt && !(others.length > 0 && others.every(other => arrivals.some(({ end: to, step: at }) => to === other && at <= step))));
      same('what is under way', onTheirWay(end, step).map(({ datagram }) => datagram), plain.map(({ datagram }) => datagram).reverse());
    }
    const state = { trace, wiring, spots, pane, step, since: step - 1 - below(3), shifts: [], typed: {}, captions: captionsOf(script), place: 'end', chosen: pick(chosen),
      isQuiz: false, isLarge: step % 5 === 0, guesses: new Map() };
    const pilesOf = ({ parts }) => parts.filter(({ text }) => text.includes('class="pile')).length;
    same('the datagrams, whatever is chosen', pilesOf(drawingOf(state)), pilesOf(drawingOf({ ...state, chosen: null })));
    const { width, height } = drawingOf(state);
    for (const [, x, y, text] of drawingOf(state).parts.flatMap(part => [...part.text.matchAll(/class="prefix" x="(.*?)" y="(.*?)">(.*?)</g)])) {
      const half = 3.2 * text.length, rims = [x - half, width - half - x, y - 8, height - 8 - y];
      if (2 * half < width && Math.min(...rims) < -0.1) throw new Error(`${text} stands at ${x} ${y}`);
    }
    for (const markup of [...drawingOf({ ...state, flying: true }).parts, ...drawingOf({ ...state, hasHops: true, isSending: true }).parts, timelineOf(state, { width: 400, height: 300 }), detailOf(state), ...tablesOf(state), matrixOf(state), quizOf(state), ...drawingOf({ ...state, isQuiz: true }).parts]) if (/undefined|NaN|\[object/.test(markup.text)) throw new Error(`step ${step}, ${state.chosen}: ${markup.text.match(/.{60}(undefined|NaN|\[object).{20}/s)?.[0]}`);
  });
}

// The script with 26 rounds more.
function healedFrom(script, { steps }) {
  const due = Math.max(...steps.at(-1).routers.flatMap(({ timers }) => [timers.last, timers.regular]));
  return readTrace(ran(`${script}rounds 26 ${due} 30000\n`, '--trace'));
}

// ---- By hand ----
const CASES = {
  'no name stands twice in the one script': () => {
    const names = readdirSync(sources).filter(file => file.endsWith('.js')).flatMap(file =>
      [...readFileSync(join(sources, file), 'utf8').matchAll(/^(?:export )?(?:async )?(?:function|class|const|let) (\w+)/gm)].map(([, name]) => name));
    same('a name', names.filter((name, index) => names.indexOf(name) !== index), []);
  },
  decoding: () => same('it', decode('0201000020010db8000000000000000000000000000720030000000000000000000000000000000000000010'), 'response entries 2\n0 2001:db8::/32 tag 7 metric 3\n1 ::/0 tag 0 metric 16'),
  'a request for all routes': () => same('it', wholeRequest(), '010100000000000000000000000000000000000000000010'),
  'names of things': () => {
    const trace = readTrace(ran('router\niface fe80::1 1 1280 0\nown 2001:db8::/32 1\ncold 0\n', '--trace'));
    for (const text of ['router length', 'router 0x0', 'router 00', 'router 1', 'iface 0 1', 'datagram __proto__', 'route 0 <b>', 'router -1', '', 'step 0']) same(text, named(text, trace), null);
    same('router 0', named('router 0', trace), { kind: 'router', router: 0 });
  },
  'captions and names': () => {
    same('captions', captionsOf('# a\n# b\nrouter\ncold 0\n\n# c\nround 0'), ['', '', '', 'a b', 'a b', 'a b', 'a b', 'c', 'c']);
    same('the last', captionsOf('# a\nrouter\n# b').at(-1), 'b');
    const named = withName('router Bonn\nrouter quiet\nown ::/0 1', 1, 'Berlin');
    same('names', [...namesOf(named)], [[0, 'Bonn'], [1, 'Berlin']]);
    same('a name less', withName(named, 0, ''), 'router\nrouter quiet Berlin\nown ::/0 1');
  },
  'new networks run': () => {
    for (const shape of Object.keys(SHAPES)) for (const count of [2, 5, 16]) {
      const trace = readTrace(ran(networkScript(shape, count), '--trace'));
      same(`${shape} of ${count}`, [trace.ends.length, trace.steps.at(-1).record.record], [count, 'start']);
    }
    const ring = networkScript('ring', 3), wider = joined(joined(ring, 2, 3, 4).script, 0, 3, 5).script, trace = readTrace(ran(wider, '--trace'));
    same('the joined network', trace.ends.map(ends => ends.map(({ link }) => link)), [[0, 2, 4], [0, 1], [1, 2, 3], [3, 4]]);
    same('a link to itself, from nowhere, past the next', [joined(ring, 1, 1, 1), joined(ring, 9, 1, 1), joined(ring, 1, 40, 1)], [null, null, null]);
  },
  'what to do about a refusal': () => {
    const refused = { record: 'refused', line: 5, why: '4 AddressSharedInNetwork' };
    same('no hint', [hintOf(refused), hintOf({ ...refused, hint: null })], ['', '']);
    same('a hint of the line', hintOf({ ...refused, hint: { line: 5, text: 'so' } }), '; so');
    same('a hint of another line', hintOf({ ...refused, hint: { line: 2, text: 'so' } }), '; line 2: so');
  },
  'an interface alone on its link is drawn, and what it sent is lost': () => {
    const trace = readTrace(ran('router\niface fe80::1 3 1280 0\nown 2001:db8::/32 1\ncold 0\ntick 0 0 0\ntick 0 10 0\n', '--trace')), wiring = wiringOf(trace);
    const state = { trace, wiring, spots: layOut(wiring), pane: { width: 500, height: 400 }, step: 1, place: 'end', shifts: [], chosen: null };
    for (const text of ['data-choose="iface 0 0"', 'data-choose="datagram 1"', 'class="pile lost"']) same(text, drawingOf(state).parts.some(part => part.text.includes(text)), true);
  },
  // A line of three, by hand: the far one's least cost is 3, and none while the link or the router between is out.
  'links that are cut, and routers that are silent': () => {
    const script = 'router\niface fe80::1 1 1280 0\nown ::/0 0\nrouter Mid\niface fe80::2 1 1280 0\niface fe80::3 1 1280 1\n'
      + 'router\niface fe80::4 1 1280 1\ncold 0\ncut 1\nround 0\nmend 1\nsilent Mid\nround 15000\nspeaks 1\nround 30000\n';
    const trace = readTrace(ran(script, '--trace'), script), at = line => trace.steps.findLast(({ record }) => record.line === line);
    same('what is out', [9, 10, 11, 12, 13, 14, 15, 16].map(line => [...at(line).out]),
      [[], [['link 1', 10]], [['link 1', 10]], [], [['router 1', 13]], [['router 1', 13]], [], []]);
    same('least costs', [9, 10, 13, 16].map(line => leastCosts(trace, at(line), '::/0')), [[1, 2, 3], [1, 2, 16], [1, 16, 16], [1, 2, 3]]);
    same('what is said', [10, 12, 13, 15].map(line => describe(at(line).record, trace.names)),
      ['link 1 is cut', 'link 1 is mended', 'Mid fails', 'Mid is up again']);
    same('in the list', eventOf(at(13), 0, trace.names).text.includes('Mid fails'), true);
    const wiring = wiringOf(trace), state = { trace, wiring, spots: layOut(wiring), pane: { width: 500, height: 400 }, step: 1, shifts: [], chosen: null };
    same('the wire', drawingOf(state).parts.map(({ text }) => text.includes('class="wire cut"')), drawingOf(state).parts.map((_, part) => part === 1));
  },
  // Of lines that are no event each has a step, at the end of a script too, and so has one that is refused as it has to be.
  'lines that are no event have a step': () => {
    const stepsOf = script => readTrace(ran(script, '--trace'), script).steps.map(({ record: { line, record } }) => `${line} ${record}`);
    same('at the end', stepsOf(`${THREE}cut 1\n# Why?\nrefused Outage\nphases 2 1\nsilent 2\n`), ['9 start', '10 outage', '13 outage', '14 outage']);
    same('up to a refusal', stepsOf(`${THREE}cut 1\nmend 9\nsilent 2\n`), ['9 start', '10 outage', '11 refused']);
    const script = `${THREE}down 1 0\nup 1 0\n`, { steps } = readTrace(ran(script, '--trace'), script);
    same('one that its routers notice', steps.map(({ record: { line, record }, out }) => `${line} ${record} ${[...out.keys()]}`.trim()).filter((one, at, all) => one !== all[at - 1]),
      ['9 start', '10 event link 1', '11 event']);
  },
  // The card has each line of docs/SCRIPTS.md, by its first word, and no other.
  'the card of lines': () => {
    const page = readFileSync(fileURLToPath(new URL('../../docs/SCRIPTS.md', import.meta.url)), 'utf8').split('\n');
    const rows = page.slice(page.indexOf('| Line | Meaning |') + 2).join('\n').split('\n\n')[0].split('\n');
    const words = rows.flatMap(row => [...row.split(' | ')[0].matchAll(/`(\w+)/g)].map(([, word]) => word));
    const mine = LINES.map(([form]) => form.split(' ')[0]);
    same('them', [...new Set(words)].filter(word => !['all', 'PREFIX', 'but'].includes(word)).sort(), mine.toSorted());
  },
  // Of 4.5 for text and 3 for shapes (WCAG 2.1, 1.4.3 and 1.4.11), in light and in dark.
  contrast: () => {
    const css = readFileSync(join(sources, 'style.css'), 'utf8');
    const colors = new Map([...css.matchAll(/--([\w-]+): light-dark\((#\w{6}), (#\w{6})\)/g)].map(([, name, ...both]) => [name, both]));
    const light = hex => [1, 3, 5].map(at => parseInt(hex.slice(at, at + 2), 16) / 255).map(part => part <= 0.04045 ? part / 12.92 : ((part + 0.055) / 1.055) ** 2.4)
      .reduce((sum, part, index) => sum + part * [0.2126, 0.7152, 0.0722][index], 0);
    const ratio = (one, other) => { const [low, high] = [light(one), light(other)].sort((a, b) => a - b); return (high + 0.05) / (low + 0.05); };
    const texts = ['ink', 'faint', 'bad'].flatMap(text => ['page', 'pane', 'now', 'new'].map(ground => [text, ground, 4.5]));
    const others = [['bad', 'bad-ground', 4.5], ['post', 'page', 4.5], ['walk', 'pane', 4.5], ['on-mark', 'post', 4.5], ['ink', 'node', 4.5], ['bad', 'node', 4.5]];
    const shapes = [['edge', 'node', 3], ['edge', 'pane', 3], ['post', 'pane', 3], ['ink', 'now', 3], ['field', 'pane', 3], ['bad', 'pane', 3]];
    for (const [one, other, least] of [...texts, ...others, ...shapes]) for (const mode of [0, 1]) {
      const found = ratio(colors.get(one)[mode], colors.get(other)[mode]);
      if (found < least) throw new Error(`${one} on ${other} is ${found.toFixed(2)} in ${['light', 'dark'][mode]}`);
    }
  },
  'lines put in': () => {
    const put = (...words) => { const { script, first } = inserted(...words); return { script, first }; };
    same('at the end', put('a\nb\n', ['c'], 'end', 1), { script: 'a\nb\nc\n', first: 3 });
    same('after a line', put('a\nb\n', ['c'], 'here', 1), { script: 'a\nc\nb\n', first: 2 });
    same('without the rest', put('a\nb', ['c', 'd'], 'branch', 1), { script: 'a\nc\nd\n', first: 2 });
    same('what lines were', inserted('a\nb\n', ['c'], 'here', 1).origins, [1, 0, 2]);
  },
  stepping: () => {
    const script = `${networkScript('line', 2)}round 0\nround 15000\nprint\n`, trace = readTrace(ran(script, '--trace')), lines = trace.steps.map(({ record }) => record.line);
    same('the last event of a line', nextStop(trace, [], 0, 'line', 1), lines.lastIndexOf(lines[1]));
    same('the next change', trace.steps[nextStop(trace, [], 0, 'change', 1)].record.changes.length, 1);
    same('past the end', nextStop(trace, [], trace.steps.length - 1, 'event', 1), trace.steps.length - 1);
    same('the staircase', metricRuns(trace, 1, '2001:db8::/32').map(({ metric, least }) => [metric, least]), [[undefined, 2], [2, 2]]);
  },
};

// ---- By hand, in other files ----
// A line of three: R0 owns the prefix; link 0 is between R0 and R1, link 1 between R1 and R2.
const THREE = 'router\niface fe80::a0 1 1280 0\nown 2001:db8::/32 0\nrouter\niface fe80::b0 1 1280 0\niface fe80::b1 1 1280 1\nrouter\niface fe80::c0 1 1280 1\ncold 0\n';
const traceOf = script => readTrace(ran(runnable(script), '--trace'), script);
for (const more of [lessonCases, packetCases, placingCases, removalCases, shownCases, askingCases, verdictCases, branchCases, pcapCases, exerciseCases, besideCases, madeCases, wordCases, saidCases]) Object.assign(CASES, more({ ran, same, traceOf, three: THREE }));

let passed = 0, failed = 0;
function attempt(name, check) {
  if (names.length > 0 && !names.some(word => name.includes(word))) return;
  try {
    console.log(`ok ${name}${check() ?? ''}`);
    passed++;
  } catch (fault) {
    console.log(`FAILED ${name}: ${fault.message.slice(0, 500)}`);
    failed++;
  }
}
for (const [name, check] of Object.entries(CASES)) attempt(name, check);
// Each example and lesson: every pane at every step, and each metric is the cost of a walk.
attempt('examples and lessons', () => {
  const folders = ['../../examples/', '../../examples/lessons/', '../../examples/exercises/'].map(path => fileURLToPath(new URL(path, import.meta.url)));
  const files = folders.flatMap(path => readdirSync(path).filter(file => file.endsWith('.lab')).map(file => path + file));
  for (const file of files) {
    const script = readFileSync(file, 'utf8'), trace = readTrace(ran(script, '--trace'), script);
    checkPanes(script, trace);
    // What is promised of a script is promised up to its first lie.
    const lie = trace.steps.findIndex(({ record }) => record.event?.kind === 'liar');
    for (const state of trace.steps.slice(0, lie < 0 ? undefined : lie)) {
      const { held, backed } = tallyAll(trace, state);
      same(`the tally of ${file}`, backed, held);
    }
  }
  return `: ${files.length} of them`;
});
attempt('random scripts', () => {
  let hops = 0, steps = 0, passed = 0;
  for (let number = 0; number < Number(scripts); number++) {
    const before = random, script = randomScript(), trace = readTrace(ran(script, '--trace'));
    try {
      checkTables(script, trace);
      hops += checkWalks(script, trace);
      for (const state of trace.steps.filter(({ record }) => record.record === 'print')) passed += checkPackets(same, trace, state, script);
      checkHealed(same, healedFrom(script, trace));
      checkPanes(script, trace);
    } catch (fault) {
      throw new Error(`the script of seed ${before}: ${fault.message}`);
    }
    steps += trace.steps.length;
  }
  if (hops < 10 * Number(scripts)) throw new Error(`only ${hops} hops were seen`);
  return `: ${scripts} of them, ${steps} steps, ${hops} hops of walks, ${passed} of packets`;
});
attempt('scripts in which much goes wrong', () => {
  const all = { arrive: 0, circle: 0, drop: 0, lose: 0 }, count = Math.max(JUDGED, Number(scripts));
  let marks = 0, prints = 0;
  for (let number = 0; number < count; number++) {
    const before = random;
    try {
      const judged = checkJudged({ ran, same, below, pick, randomNetwork, prefixes: PREFIXES });
      [marks, prints] = [marks + judged.marks, prints + judged.prints];
      for (const fate of judged.fates) all[fate]++;
    } catch (fault) {
      throw new Error(`the script of seed ${before}: ${fault.message}`);
    }
  }
  for (const [fate, seen] of Object.entries(all)) if (seen < count / 20) throw new Error(`only ${seen} packets ${fate}`);
  return `: ${count} of them, ${prints} moments, ${marks} marks, ${Object.entries(all).map(([fate, seen]) => `${seen} ${fate}`).join(', ')}`;
});
rmSync(folder, { recursive: true });
console.log(`${passed} passed, ${failed} failed`);
process.exit(failed === 0 ? 0 : 1);
