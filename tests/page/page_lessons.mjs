// Lessons, losses, and what is shown of them, for tests/page/page.mjs, worked out by hand.
import { readFileSync, readdirSync } from 'node:fs';
import { fileURLToPath } from 'node:url';
import { nextStop } from '../../page/src/trace.js';
import { updatesOf } from '../../page/src/walks.js';
import { covers, oneResponse } from '../../page/src/datagrams.js';
import { SHAPES, inserted, joined, networkScript, placesOf, withPlaces } from '../../page/src/building.js';
import { captionsOf, checksOf, expectationsOf, metricIn, questionIn, withAnswer } from '../../page/src/lessons.js';
import { losing } from '../../page/src/losing.js';
import { keysOf, renumbered } from '../../page/src/numbering.js';
import { fitted, layOut, linksApart, wiringOf } from '../../page/src/layout.js';
import { drawingOf } from '../../page/src/drawing.js';
import { detailOf } from '../../page/src/detail.js';
import { guessed, markGuess, reveal, scoreOf } from '../../page/src/quiz.js';
import { describe } from '../../page/src/texts.js';

const metricsAt = (trace, step = trace.steps.length - 1) => trace.steps[step].routers.map(({ table }) => table.get('2001:db8::/32')?.route.metric ?? null);

// The answers of the exercises, by hand: metrics go up by the cost of each interface that receives, and end at 15.
const ANSWERS = {
  'exercise-02-line': '3 none 1 8', 'exercise-03-detour': '7 none 7 3 4', 'exercise-05-one-way-cost': '4 8 8 4 16',
  'exercise-06-timeout': '2 16 16 none', 'exercise-10-poisoned-reverse': '3 16 16 3 16', 'exercise-11-ring-of-four': '3 16 3 4 5 16 6 16',
  'exercise-15-horizon': '6 11 none', 'exercise-04-two-owners': '3 3 16 3 4 5', 'exercise-07-dead-router': '4 3 16 16 6 16 7',
  'exercise-12-lost-withdrawal': '2 16 16 3 16 none', 'exercise-19-liar': '4 2 2 2 2 3',
  'exercise-01-one-hop': 'none 7 none 3 1 10 7', 'exercise-09-news': '4 6 2 6 4 15 4 16 10 12',
  'exercise-13-loops': '2 2 4 4 16 16', 'exercise-20-restart': 'none 3 2 none 3 2', 'exercise-27-good-bye': '16 4 16 6 16 7',
};

export function lessonCases({ ran, same, traceOf, three }) {
  return {
    // A blank that is not filled in is no line of the program; with the answers an exercise holds, and with any other it does not.
    exercises: () => {
      const folder = fileURLToPath(new URL('../../examples/exercises/', import.meta.url)), files = readdirSync(folder);
      same('them', files.map(file => file.replace('.lab', '')).sort(), Object.keys(ANSWERS).sort());
      for (const [name, answers] of Object.entries(ANSWERS)) {
        const script = readFileSync(`${folder}${name}.lab`, 'utf8'), blanks = expectationsOf(script), words = answers.split(' ');
        same(`the blanks of ${name}`, [blanks.length, blanks.every(({ wanted }) => wanted === '?')], [words.length, true]);
        same(`what ${name} says unfilled`, ran(script), `line ${blanks[0].line} refused BadLine\n`);
        same(`what is found in ${name}`, checksOf(traceOf(script), blanks).map(({ found }) => found).join(' '), answers);
        same(`${name} filled in`, ran(blanks.reduce((text, { line }, at) => withAnswer(text, line, words[at]), script)), '');
      }
    },
    // What stands behind an empty remark line and is indented or has a link in it is a drawing; a line of places is nothing.
    'captions without drawings': () => {
      same('a drawing', captionsOf('# How long?\n#\n#   0\n#  / \\\n#   1---2     link 0 costs 9\nrouter\n# So.\n#places 0 1 2\ncold 0'), ['', '', '', '', '', '', 'How long?', 'How long?', 'How long?', 'So.', 'So.']);
      same('a paragraph', captionsOf('# One.\n#\n# Two.\nrouter').at(-1), 'One. Two.');
      same('a long one', captionsOf(`${'# a word and words\n'.repeat(20_000)}router`).at(-1).length, 5002);
      same('a drawing alone', captionsOf('# One.\nrouter\n#\n# a --link 0-- b\ncold 0').at(-1), 'One.');
    },
    // Four expectations and a blank: R1 has 2 after a round, and R2 nothing. With a blank all are come to, and without one what is wrong ends
    // the script.
    expectations: () => {
      const script = `${three}round 0\nexpect 1 2001:db8::/32 2   # so\nexpect 2 2001:db8::/32 none\nexpect 1 2001:DB8:0::/32 ?\nround 15000\nexpect 2 2001:db8::/32 4\nexpect 2 2001:db8::/32 3\n`;
      same('them', expectationsOf(script).map(({ line, router, wanted }) => [line, router, wanted]), [[11, 1, '2'], [12, 2, 'none'], [13, 1, '?'], [15, 2, '4'], [16, 2, '3']]);
      same('as checked', checksOf(traceOf(script), expectationsOf(script)).map(({ line, found, isMet, isBlank }) => [line, found, isMet, isBlank]),
        [[11, '2', true, false], [12, 'none', true, false], [13, '2', false, true], [15, '3', false, false], [16, '3', true, false]]);
      const plain = script.replace('?', '2');
      same('without a blank', checksOf(traceOf(plain), expectationsOf(plain)).map(({ line, isMet }) => [line, isMet]), [[11, true], [12, true], [13, true], [15, false]]);
      same('an answer', withAnswer(script, 13, '2').split('\n')[12], 'expect 1 2001:DB8:0::/32 2');
      same('by name', expectationsOf('router a\nrouter b\nexpect b ::/0 none').map(({ router }) => router), [1]);
      same('what is no metric', ['0', '17', 'x', '', '1.5'].map(metricIn), [null, null, null, null, null]);
      same('what is one', ['1', ' 16 ', 'none', '∞', '07'].map(metricIn), ['1', '16', 'none', '16', '7']);
    },
    // The Requests are datagrams 0 to 3. The first round sends 4, of R0 alone, and passes the Requests by; the second sends 5 of R0, 6
    // and 7 of R1, on links 0 and 1. Link 1 is cut then: 7 is lost where the round ends.
    'when datagrams are lost': () => {
      const trace = traceOf(`${three}round 0\ncut 1\nround 15000\nround 30000\n`), lostIn = number => trace.steps[trace.datagrams[number].lostAt]?.record.line ?? null;
      same('the lines', [0, 1, 2, 3, 4, 5, 6, 7].map(lostIn), [10, 10, 10, 10, null, null, null, 12]);
      const last = trace.datagrams[7].lostAt;
      same('it is the last step of the round', [trace.steps[last].record.line, trace.steps[last + 1].record.line], [12, 13]);
      const wiring = wiringOf(trace), drawn = (step, since) => drawingOf({ trace, wiring, spots: layOut(wiring), pane: { width: 500, height: 400 }, step, since, shifts: [], chosen: null })
        .parts.filter(({ text }) => text.includes('pile lost')).length;
      same('it is drawn once, and the Requests never', [drawn(last, last - 1), drawn(last + 1, last), drawn(trace.datagrams[0].lostAt, 0)], [1, 0, 0]);
    },
    'what a line says is lost, and what was overtaken': () => {
      const said = traceOf(`${three}tick 0 0 0\nlose 4\n`);
      same('the line', said.steps[said.datagrams[4].lostAt].record.line, 11);
      const overtaken = traceOf(`${three}tick 0 0 0\ntick 0 40000 0\ndeliver 5 1 0 40000\n`);
      same('the step', [overtaken.datagrams[4].lostAt, overtaken.datagrams[5].lostAt], [3, Infinity].map(step => step));
      const late = traceOf(`${three}tick 0 0 0\ntick 0 40000 0\ndeliver 5 1 0 40000\ndeliver 4 1 0 50000\n`);
      same('one that comes later', late.datagrams[4].lostAt, Infinity);
    },
    // A datagram of each kind of line is lost, and with it what it told; all else comes as before.
    'one datagram more is lost': () => {
      const lostIn = (lines, number, at = 0) => { const script = three + lines, edit = losing(traceOf(script), script, number, at, script.split('\n').length - 1); return [edit.script.slice(three.length), metricsAt(traceOf(edit.script))]; };
      same('by deliver', lostIn('tick 0 0 0\ndeliver 4 1 0 0\n', 4), ['tick 0 0 0\nlose 4\n', [1, null, null]]);
      same('by tell', lostIn('tell 0 0 0\ntell 1 0 0  # so\n', 4), ['tell 0 0 0 but 0\ntell 1 0 0  # so\n', [1, null, null]]);
      same('by hear', lostIn('hear but 0 1 2 3\ntick 0 0 0\nhear\n', 4), ['hear but 0 1 2 3\ntick 0 0 0\nlose 4\nhear\n', [1, null, null]]);
      // Of the third round 8 is that of R1 on link 0, and 9 that on link 1.
      same('by a round', lostIn('round 0\n', 4), ['hear but 0 1 2 3\ntick 0 0 0\ntick 1 0 0\ntick 2 0 0\nlose 4\nhear\n', [1, null, null]]);
      same('by rounds', lostIn('rounds 3 0 15000\n', 7), ['round 0\ntick 0 15000 0\ntick 1 15000 0\ntick 2 15000 0\nlose 7\nhear\nround 30000\n', [1, 2, 3]]);
      same('under way', lostIn('tick 0 0 0\n', 4), ['tick 0 0 0\nlose 4\n', [1, null, null]]);
      same('by phases', typeof losing(traceOf(`${three}phases 2 1\n`), `${three}phases 2 1\n`, 6, 0, 10).why, 'string');
    },
    // A link more for R0, and so a Request more: what was datagram 4 is 6 then, since R0 and R2 send one more each.
    'lines name the datagrams that they named': () => {
      const script = `${three}tick 0 0 0\ndeliver 4 1 0 0\n`, trace = traceOf(script), edit = joined(script, 0, 2, 5, 11);
      const after = renumbered({ had: keysOf(trace), was: trace, old: script }, edit, traceOf(edit.script));
      same('the number', after.split('\n').find(line => line.startsWith('deliver')), 'deliver 6 1 0 0');
      same('the link is cut at first', [after.includes('cold 0\ncut 2\n'), after.endsWith('mend 2\n')], [true, true]);
      same('it holds', metricsAt(traceOf(after)), [1, 2, null]);
      const refused = `${three}round 0\nrefused NoSuchDatagram\nhear but 0\n`, more = inserted(refused, ['round 15000'], 'end', 0), had = traceOf(refused);
      same('one that is refused stays', renumbered({ had: keysOf(had), was: had, old: refused }, more, traceOf(more.script)), more.script);
    },
    'places of routers': () => {
      const script = withPlaces('a\nb\n', [undefined, { x: 0.5, y: -1 }]);
      same('the line', script, 'a\nb\n#places 1 0.50 -1.00\n');
      same('them', placesOf(script)[1], { x: 0.5, y: -1 });
      same('none', withPlaces(script, []), 'a\nb\n');
    },
    // R0 to the left of a line, at the top of a ring; a ring of five is regular.
    'where router 0 stands': () => {
      const spotsOf = script => layOut(wiringOf(traceOf(script)));
      for (const count of [2, 3, 9]) {
        const spots = spotsOf(networkScript('line', count));
        same(`a line of ${count}`, spots.map(({ x }, spot) => [x, spot]).sort(([a], [b]) => a - b).map(([, spot]) => spot), spots.map((_, spot) => spot));
      }
      // A long line goes forth and back, six in a row, and has room so where a class sees it.
      const rows = spotsOf(networkScript('line', 16));
      same('rows', rows.map(({ x, y }) => [x, y].join()).join(' '), '0,0 1,0 2,0 3,0 4,0 5,0 5,1 4,1 3,1 2,1 1,1 0,1 0,2 1,2 2,2 3,2');
      same('whether they have room', fitted(rows, [], { width: 520, height: 300 }).roomy, true);
      const ring = spotsOf(networkScript('ring', 5)), lengths = ring.map(({ x, y }, spot) => Math.hypot(x - ring[(spot + 1) % 5].x, y - ring[(spot + 1) % 5].y).toFixed(3));
      same('a ring', [new Set(lengths).size, ring.every(({ y }) => y >= ring[0].y)], [1, true]);
    },
    // A link more or less is one; a line and a ring of as many routers are one apart, a star and a line are not.
    'how far networks are apart': () => {
      const of = (shape, count) => traceOf(networkScript(shape, count)), line = of('line', 5), more = traceOf(joined(networkScript('line', 5), 0, 2, 1).script);
      same('links', [[line, line], [line, more], [more, line], [line, of('ring', 5)], [line, of('star', 5)]].map(([one, other]) => linksApart(one, other)), [0, 1, 1, 1, 6]);
    },
    // By hand: six routers in two rows of three, and in a tree of three ranks.
    'grids and trees': () => {
      same('a grid', SHAPES.grid(6).map(String), ['0,1', '0,3', '1,2', '1,4', '2,5', '3,4', '4,5']);
      same('one that is not full', SHAPES.grid(5).map(String), ['0,1', '0,3', '1,2', '1,4', '3,4']);
      same('a tree', SHAPES.tree(6).map(String), ['0,1', '0,2', '1,3', '1,4', '2,5']);
      const spots = layOut(wiringOf(traceOf(networkScript('grid', 9)))), beside = SHAPES.grid(9).map(([a, b]) => Math.hypot(spots[a].x - spots[b].x, spots[a].y - spots[b].y));
      same('whether it is seen as one', Math.max(...beside) < 1.3 * Math.min(...beside), true);
    },
    'prefixes in others': () => same('them', [covers('::/0', '2001:db8::/32'), covers('2001:db8::/32', '2001:db8:1::/48'), covers('2001:db8:1::/48', '2001:db8::/32'), covers('2001:db8:2::/48', '2001:db8:1::/48')], [true, true, false, false]),
    // R1 learned the prefix on link 0: there it advertises it at 16, on link 1 at 2.
    'what an update tells': () => {
      const trace = traceOf(`${three}rounds 2 0 15000\n`), step = trace.steps.findLastIndex(({ record }) => record.event?.kind === 'tick' && record.router === 1);
      same('it', updatesOf(trace, step).map(({ link, entries }) => [link, entries.map(({ metric, isPoisoned }) => [metric, isPoisoned])]), [[0, [[16, true]]], [1, [[2, false]]]]);
      same('what is said of it', describe(trace.steps[step].record), 'R1: regular update, 2 sent');
      const detail = detailOf({ trace, step, chosen: null, wiring: wiringOf(trace), typed: {}, place: 'end', shifts: [] }).text;
      for (const text of ['(poisoned reverse)', 'link 1']) same(text, detail.includes(text), true);
    },
    // Words of an expiry, of a withdrawal, of a forged Response that changes nothing, and names.
    'the words of events': () => {
      const script = three.replace('router', 'router Bonn'), said = lines => { const trace = traceOf(script + lines), { record } = trace.steps.at(-1); return describe(record, trace.names); };
      same('an expiry', said('round 0\ntick 1 200000 0\n'), 'R1: triggered update, 2 sent, 2001:db8::/32 times out'.replace('triggered', JSON.parse(ran(`${script}round 0\ntick 1 200000 0\n`, '--trace').trimEnd().split('\n').at(-1)).update));
      same('a withdrawal', said('round 0\ndrop 0 10 2001:db8::/32\ntick 0 10000 0\ndeliver last 1 0 10000\n'), 'R1 receives datagram 5 from Bonn, 2001:db8::/32 is withdrawn by its next hop');
      const lie = metric => `liar 1 0 10 fe80::66 ${oneResponse('2001:db8::/32', 0, metric)}\n`;
      same('a lie that is dearer', said(`round 0\n${lie(9)}`), 'R1 receives a forged Response of fe80::66');
      same('a lie that is believed', said(`round 0\n${lie(1)}`).startsWith('R1 receives'), true);
      same('a lie about what is new', said(lie(9)), 'R1 believes a forged Response of fe80::66, 2001:db8::/32 at 10');
    },
    // The remark is shown where what it is about has ended: the first about the start, the second about two rounds.
    'stops by comment': () => {
      const script = `# One.\n${three}# Two.\nround 0\nround 15000\n# Three.\nround 30000\n`, trace = traceOf(script), captions = captionsOf(script);
      const stop = nextStop(trace, captions, 0, 'remark', 1);
      same('the line of the stop, and of the next step', [trace.steps[stop].record.line, trace.steps[stop + 1].record.line], [13, 15]);
      same('back again', nextStop(trace, captions, stop, 'remark', -1), 0);
    },
    'what a caption asks in a quiz': () => {
      const asked = ['Question: how long? Answer: 16 rounds. Why?', 'R1 has 5. What has R2? It has 6.', 'Each adds 1.', ''];
      same('it', asked.map(questionIn), ['Question: how long?', 'R1 has 5. What has R2?', '', '']);
    },
    // Of three routers one is guessed at once, one at the second time, and one is shown.
    'a quiz': () => {
      const trace = traceOf(`${three}rounds 2 0 15000\n`), view = { trace, step: trace.steps.length - 1, chosen: null, guesses: new Map() };
      same('hidden', [0, 1, 2].map(router => guessed(view, router)), [null, null, null]);
      markGuess(view, 0, '1');
      markGuess(view, 1, '3');
      markGuess(view, 1, 'x');
      markGuess(view, 1, '2');
      reveal(view, 2);
      markGuess(view, 2, '3');
      same('seen', [0, 1, 2].map(router => guessed(view, router)), [1, 2, 3]);
      same('the score', scoreOf(view), { marked: 3, right: 2, atOnce: 1 });
      const wiring = wiringOf(trace), drawn = drawingOf({ ...view, guesses: new Map(), isQuiz: true, wiring, spots: layOut(wiring), pane: { width: 500, height: 400 }, shifts: [] });
      same('what the drawing tells', drawn.parts.some(({ text }) => /metric 1|>1</.test(text.replace(/[①-⑳]/g, ''))), false);
    },
  };
}
