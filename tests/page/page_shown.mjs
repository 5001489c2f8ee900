// What the page shows, for tests/page/page.mjs: numbers and words that could mislead.
import { filterOf } from '../../page/src/filtering.js';
import { offersOf } from '../../page/src/walks.js';
import { layOut, wiringOf } from '../../page/src/layout.js';
import { drawingOf } from '../../page/src/drawing.js';
import { detailOf, eventOf, openAt } from '../../page/src/detail.js';
import { matrixOf, tablesOf, tallyOf } from '../../page/src/tables.js';
import { checksOf, expectationsOf, plainLines, withAnswer } from '../../page/src/lessons.js';
import { quizzed, veiled } from '../../page/src/veiling.js';
import { joined, networkScript } from '../../page/src/building.js';
import { oneResponse } from '../../page/src/datagrams.js';
import { LINES } from '../../page/src/texts.js';
import { axisOf } from '../../page/src/plot.js';

export function shownCases({ same, traceOf, three }) {
  const drawn = (trace, more = {}) => {
    const wiring = wiringOf(trace), state = { trace, wiring, spots: layOut(wiring), pane: { width: 500, height: 400 }, step: trace.steps.length - 1, shifts: [], chosen: null, ...more };
    return drawingOf(state).parts.map(({ text }) => text).join('');
  };
  const told = (trace, more = {}) => detailOf({ trace, step: trace.steps.length - 1, wiring: wiringOf(trace), typed: {}, place: 'end', chosen: null, ...more }).text.replace(/\s+/g, ' ');
  return {
    // R2 learned the prefix of R1, and so tells R1 16: R1 holds 2, which stays.
    'an offer that is unreachable': () => {
      const trace = traceOf(`${three}rounds 3 0 15000\n`), step = trace.steps.findLastIndex(({ record }) => record.event?.kind === 'deliver' && record.router === 1 && trace.datagrams[record.event.datagram].router === 2);
      same('what becomes of it', offersOf(trace, step).map(({ told: metric, before, after, outcome }) => [metric, before, after, outcome]), [[16, 2, 2, 'unreachable: ignored']]);
      same('what is said', told(trace, { step }).includes('unreachable: ignored'), true);
    },
    // Before anything is owned there is no route that could be shortest; behind a forged update there is no path to show.
    'nothing is said of nothing': () => {
      const none = traceOf(three.replace('own 2001:db8::/32 0\n', ''));
      same('the tally', tallyOf({ trace: none, step: 0 }).text.includes('0 of 0 route'), false);
      const lied = traceOf(`${three}liar 1 0 10 fe80::66 ${oneResponse('2001:db8:9::/48', 0, 1)}\n`), text = told(lied, { chosen: 'route 1 2001:db8:9::/48' });
      same('the walk', [text.includes('It comes from a forged update or a router that is not RIPng; there is no such walk.'), text.includes('<table id="walk">')], [true, false]);
    },
    // R2 has the route from R1, and without split horizon gives it back: 3 + 1.
    'what a router sends that is not RIPng': () => {
      const trace = traceOf(`${three}rounds 3 0 15000\nhorizon 2 none\ndown 0 31000\ntell 2 45000\n`), { record } = trace.steps.at(-1);
      const sent = trace.datagrams.findLast(({ router }) => router === 2);
      same('what is said', [told(trace).includes('R1 believes what R2 sends, which is not RIPng'), tallyOf({ trace, step: trace.steps.length - 1 }).text.includes('nothing is guaranteed')], [true, true]);
      same('what came', [record.routes.map(({ metric }) => metric), sent.arrivals.map(({ end }) => end.router)], [[4], [1]]);
      same('what is printed', told(trace, { step: trace.steps.findIndex(({ record: { record: kind } }) => kind === 'horizon') }).includes('R2 horizon none: not RIPng, nothing is promised'), true);
    },
    'a remark is true of a network that grows': () => {
      const script = joined(joined(networkScript('line', 2), 1, 2, 1).script, 2, 3, 1).script;
      same('numbers and shapes in it', /^#.*\b(\d+ routers|line|ring)\b/m.test(script), false);
    },
    // Link 0 costs 1 at both ends, link 1 costs 4 at R2. R2 has 6 over both; its walk has two hops.
    'small numbers are told apart': () => {
      const trace = traceOf(`${three.replace('iface fe80::c0 1', 'iface fe80::c0 4')}rounds 3 0 15000\ntick 0 60000 0\n`), text = drawn(trace, { chosen: 'route 2 2001:db8::/32' });
      const inside = pattern => [...text.matchAll(pattern)].map(([, found]) => found);
      same('the numbers of costs', inside(/<text x="[^"]*" y="[^"]*" font-size="(?:12|8\.5)">(\d+)<\/text><title>R\d interface/g), ['1', '4']);
      same('hops', inside(/class="hop-name"[^>]*>(.)</g), ['①', '②']);
    },
    // R0 owns the prefix, and advertises 1 at 60 s. R2 learned it from R1, and poisons it there: 16. Where R1's update comes to R2,
    // 2 is advertised, and the link costs 4.
    'the metric on an envelope': () => {
      const costly = three.replace('iface fe80::c0 1', 'iface fe80::c0 4'), told = (trace, more) => [...drawn(trace, more).matchAll(/class="(told[^"]*)"[^>]*>(\d+)</g)].map(([, kind, metric]) => `${kind} ${metric}`);
      const sent = traceOf(`${costly}rounds 3 0 15000\ntick 0 60000 0\n`), poison = traceOf(`${costly}rounds 3 0 15000\ntick 2 60000 0\n`);
      same('of the owner', told(sent), ['told 1']);
      same('with poison', told(poison), ['told unreachable 16']);
      same('for another prefix', told(sent, { chosen: 'route 0 2001:db8:1::/48' }), []);
      const trace = traceOf(`${costly}rounds 3 0 15000\n`), step = trace.steps.findLastIndex(({ record }) => record.router === 2 && record.event?.kind === 'deliver');
      const sums = more => [...drawn(trace, { step, ...more }).matchAll(/>(\d+ \+ \d+ = \d+)</g)].map(([, sum]) => sum);
      same('where it comes', sums({}), ['2 + 4 = 6']);
      const checks = [{ line: 99, router: 2, prefix: '2001:db8::/32', wanted: '?', step, isBlank: true }], asked = drawn(veiled(traceOf(`${costly}rounds 3 0 15000\n`), checks), { step, checks });
      same('while a blank asks for the sum', [asked.includes('>2 + 4 = ?<'), asked.includes('= 6')], [true, false]);
      same('in a quiz, under way', told(quizzed(sent), { isQuiz: true, guesses: new Map() }), []);
    },
    // A blank asks for R1's metric behind the first round, which is 2, and one for R2's behind the second, which is 3.
    'what a blank asks for is not told': () => {
      const script = `${three}round 0\nexpect 1 2001:db8::/32 ?\nround 15000\nexpect 2 2001:db8::/32 ?\n`, PREFIX = '2001:db8::/32';
      const seen = (text, line, chosen = null) => {
        const whole = traceOf(text), checks = checksOf(whole, expectationsOf(text)), trace = veiled(whole, checks), step = trace.steps.findLastIndex(({ record }) => record.line === line);
        const view = { trace, step, since: step - 1, chosen, checks };
        const badges = [...drawn(trace, view).matchAll(/class="plate"[^]*?<text [^>]*>([^<]*)</g)].map(([, badge]) => badge).join(' ');
        const cells = tablesOf(view).flatMap(({ text: table }) => [...table.matchAll(/<td class="metric"[^>]*>(.*?)</g)].map(([, cell]) => cell)).join(' ');
        const matrix = [...matrixOf(view).text.matchAll(/aria-pressed="[^"]*">([^<]*)</g)].map(([, cell]) => cell).join(' ');
        const learned = whole.steps.findIndex(({ record }) => record.router === 1 && record.changes?.length > 0);
        return { badges, cells, matrix, event: /2001:db8::\/32 (changes|at \d+)/.exec(eventOf(trace.steps[learned], learned, trace.names, openAt(view, learned)).text)?.[1], view };
      };
      const facts = ({ badges, cells, matrix, event }) => [badges, cells, matrix, event], answered = withAnswer(script, 11, '2');
      same('at the first', facts(seen(script, 10)), ['1 ?', '1 ?', '1 ? ·', undefined]);
      same('at the second', facts(seen(answered, 12)), ['1 2 ?', '1 2 ?', '1 2 ?', 'at 2']);
      same('once that is filled in', facts(seen(answered, 10)), ['1 2', '1 2', '1 2 ·', 'at 2']);
      const why = told(traceOf(script), { ...seen(script, 10).view, chosen: `route 1 ${PREFIX}`, wiring: wiringOf(traceOf(script)) });
      same('why', [why.includes('A blank asks for this metric'), /<h2>Why|id="plot"/.test(why)], [true, false]);
      const later = told(traceOf(answered), { ...seen(answered, 12).view, chosen: `route 2 ${PREFIX}` });
      same('why, of the other', later.includes('A blank asks'), true);
    },
    // What editors put into files goes; blanks between words and within remarks stay.
    'files of other editors': () => {
      const typed = '\ufeffrouter a \r\n\tiface\tfe80::1 1  1280 0\r\n  #   a\t-- b\r\nsay  a  b\t\r\ncold 0\r\n';
      same('the lines', plainLines(typed), 'router a\niface fe80::1 1  1280 0\n#   a\t-- b\nsay  a  b\ncold 0\n');
      same('lines of old systems', plainLines('router\rcold 0'), 'router\ncold 0');
    },
    'time that goes back is said': () => {
      const trace = traceOf(`${three}tick 0 1000 0\ntick 0 500 0\ntick 1 1000 0\n`), [, , back, forth] = trace.steps;
      same('which', trace.steps.map(({ earlier }) => earlier), [null, null, '0.5 s before what came last', null]);
      same('in the list', [eventOf(back, 2, trace.names), eventOf(forth, 3, trace.names)].map(({ text }) => text.includes('0.5 s before')), [true, false]);
      same('beside the drawing', told(trace, { step: 2 }).includes('Time goes back: 0.5 s before what came last.'), true);
    },
    // R2 is down from the third round on: its route by R1 would expire at 210 s, and nothing runs there. R1's, over a link that is cut, does.
    'time that has run out': () => {
      const trace = traceOf(`${three}rounds 3 0 15000\nsilent 2\ncut 0\nrounds 13 45000 15000\n`), step = trace.steps.length - 1;
      const rows = at => tablesOf({ trace, step: at, chosen: null }).map(({ text }) => /<span title="[^"]*">(.*?)<\/span>/.exec(text)?.[1] ?? '');
      same('before', rows(trace.steps.findIndex(({ record }) => record.line === 13) - 1), ['', 'in 180 s', 'in 180 s']);
      same('at 225 s', [trace.steps[step].now, ...rows(step)], [225000, '', 'deleted in 105 s', 'has run out']);
      const whyBehind = lines => /<p id="outage"[^>]*>(.*?)<\/p>/.exec(told(traceOf(`${three}rounds 3 0 15000\n${lines}`), { chosen: 'route 2 2001:db8::/32' }))?.[1];
      same('why', whyBehind('cut 1\nsilent 2\nrounds 13 45000 15000\n'), 'This walk goes over link 1, which was cut in line 11. R2 is down itself.');
      same('before its timer runs', whyBehind('cut 1\nrounds 11 45000 15000\ntick 0 215000 0\n'), 'This walk goes over link 1, which was cut in line 11. R2 notices when its timer runs.');
    },
    // The browser says a field's title where what is typed is none.
    'what a prefix is, is said': () => {
      const [, pattern, title] = /name="prefix"[^>]*pattern="([^"]*)" title="([^"]*)"/.exec(told(traceOf(three), { chosen: 'router 0' }));
      same('it', ['2001:db8:1::/48', ' ::/0 ', '10.0.0.0/8', '2001:db8::'].map(text => new RegExp(`^(?:${pattern})$`, 'v').test(text)), [true, true, false, false]);
      same('as said', title, 'a prefix of IPv6, like 2001:db8:1::/48');
    },
    // A router's number is the first word of a route and of a path, and stands within a path and in what is lost; links keep theirs.
    'what is printed has names': () => {
      const trace = traceOf(`${three.replace('router', 'router Bonn')}rounds 3 0 15000\nsilent 1\nprint\npath 2 2001:db8::1\nsent 4\nspeaks 1\ncut 0\npath 2 2001:db8::1\n`);
      const lines = [12, 13, 14, 17].map(line => /<pre>(.*?)<\/pre>/s.exec(detailOf({ trace, step: trace.steps.findIndex(({ record }) => record.line === line), wiring: wiringOf(trace), typed: {}, place: 'end', chosen: null }).text)[1].split('\n'));
      same('routes', lines[0].map(line => line.split(' ').slice(0, 2).join(' ')), ['Bonn 2001:db8::/32', 'R1 2001:db8::/32', 'R2 2001:db8::/32']);
      same('paths', [...lines[1], ...lines[3]], ['R2 2001:db8::1 path R2 R1 Bonn delivered', 'R2 2001:db8::1 lost at R1: silent', 'R2 2001:db8::1 path R2 R1 Bonn delivered', 'R2 2001:db8::1 lost at R1: link 0 is cut']);
      same('datagrams', lines[2][0].startsWith('4 router Bonn iface 0 group '), true);
    },
    // By hand: R0 has 1 from the start, R1 2 from the first round at 0 s, R2 3 from the second at 15 s. At 31 s all lose it.
    'the staircase of all routers': () => {
      const script = `${three}rounds 3 0 15000\ndrop 0 31000 2001:db8::/32\nrounds 2 45000 15000\n`, trace = traceOf(script), { values, marks, name } = axisOf(trace);
      same('the axis', [name, marks, values.at(-1)], ['seconds', [0, 10, 20, 30, 40, 50, 60], 60]);
      same('that of a script at one moment', [axisOf(traceOf(`${three}round 0\n`)).name, axisOf(traceOf(three)).values], ['step', [1]]);
      const plot = more => told(trace, { chosen: 'route 2 2001:db8::/32', ...more }), paths = [...plot({}).matchAll(/class="line-(\d) (other|held)" d="([^"]*)"/g)].map(([, line, kind, d]) => [line, kind, (d.match(/[VM]/g) ?? []).length]);
      same('lines, each with its levels', paths, [['0', 'other', 2], ['1', 'other', 2], ['2', 'held', 2]]);
      same('whose they are', /<figcaption>(.*?)<\/figcaption>/.exec(plot({}))[1].replace(/<[^>]*>/g, ''), 'The metric of R0, R1, R2; dashed, the shortest path of R2; upright, this step.');
      const checks = [{ line: 99, router: 0, prefix: '2001:db8::/32', wanted: '?', step: 99, isBlank: true }];
      same('while a blank is open', plot({ checks }).includes('id="plot"'), false);
    },
    // Rounds are counted from 1 where people read them; a router that is down has no timers; 16 is not added to.
    'words that could mislead': () => {
      const trace = traceOf(`${three}rounds 5 0 15000\nsilent 1\n`), ended = trace.steps.find(({ record }) => record.record === 'rounds');
      same('the last change', eventOf(ended, 0, trace.names).text.includes('5 rounds, the last change in round 2'), true);
      same('one that is down', [told(trace, { chosen: 'router 1' }), told(trace, { chosen: 'router 2' })].map(text => [/It is down/.test(text), /update is due/.test(text)]), [[true, false], [false, true]]);
      const poisoned = trace.steps.findLastIndex(({ record }) => record.event?.kind === 'deliver' && record.router === 1 && trace.datagrams[record.event.datagram].router === 2);
      same('unreachable', told(trace, { step: poisoned }).includes('none: unreachable'), true);
    },
    // What a link's panel offers is what scripts have lines for.
    'a cut is silent': () => {
      const has = word => LINES.some(([form]) => form.startsWith(`${word} `)), trace = traceOf(`${three}cut 1\n`);
      const lines = chosen => [...told(trace, { chosen }).matchAll(/data-lines="([^"]*)"/g)].map(([, line]) => line).filter(line => /^(cut|mend|down|up|costs?) /.test(line)).map(line => line.split(' ')[0]);
      const costs = ['cost', has('costs') ? 'costs' : 'cost'];
      same('of a link', lines('iface 0 0'), ['cut', ...has('down') ? ['down'] : [], ...costs]);
      same('of one that is cut', lines('iface 2 0'), ['mend', ...costs]);
    },
    // A word is the beginning of a name or a part of a prefix; several of a kind are any of them.
    'a filter of tables': () => {
      const script = `${three.replace('router', 'router Bonn').replace('cold', 'own 2001:db8:7::/48 0\ncold')}rounds 3 0 15000\n`, trace = traceOf(script), step = trace.steps.length - 1;
      const shown = filter => tablesOf({ trace, step, chosen: null, filter }).map(({ text }) => [/<caption[^>]*>(.*?)</.exec(text)?.[1] ?? '', (text.match(/<tr class=/g) ?? []).length].join(' '));
      same('all', shown(''), ['Bonn 2', 'R1 2', 'R2 2']);
      same('a router', [shown('bonn'), shown('R2'), shown('bo r1')], [['Bonn 2'], ['R2 2'], ['Bonn 2', 'R1 2']]);
      same('a prefix', [shown('db8:7'), shown('r1 db8:7')], [['Bonn 1', 'R1 1', 'R2 1'], ['R1 1']]);
      same('nothing', shown('zzz'), [' 0']);
      const cells = filter => (matrixOf({ trace, step, since: step - 1, chosen: null, filter }).text.match(/<td class=/g) ?? []).length;
      same('cells of the matrix', [cells(''), cells('r1'), cells('db8:7'), cells('r1 db8:7')], [6, 2, 3, 1]);
      same('R1 is not R11', [1, 11].map(filterOf(traceOf(`${networkScript('line', 12)}`), 'r1').hasRouter), [true, false]);
    },
  };
}
