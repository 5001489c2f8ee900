// Exercises: that nothing tells what a blank asks for, tries, equations, and other numbers, for tests/page/page.mjs.
import { mkdtempSync, readFileSync, readdirSync, rmSync, writeFileSync } from 'node:fs';
import { tmpdir } from 'node:os';
import { join } from 'node:path';
import { fileURLToPath } from 'node:url';
import { named, readTrace } from '../../page/src/trace.js';
import { entriesOf } from '../../page/src/datagrams.js';
import { checksOf, expectationsOf, isExercise, runnable, toldInQuiz } from '../../page/src/lessons.js';
import { answered, blanked, equationOf, progressOf, solutionOf, triesOf } from '../../page/src/exercises.js';
import { quizzed, veiled } from '../../page/src/veiling.js';
import { varied } from '../../page/src/varying.js';
import { layOut, wiringOf } from '../../page/src/layout.js';
import { drawingOf } from '../../page/src/drawing.js';
import { detailOf, eventOf, openAt } from '../../page/src/detail.js';
import { matrixOf, printed, tablesOf, tallyOf } from '../../page/src/tables.js';
import { verdictOf } from '../../page/src/forwarding.js';
import { timelineOf } from '../../page/src/timeline.js';

const FOLDER = fileURLToPath(new URL('../../examples/exercises/', import.meta.url));
const exercises = readdirSync(FOLDER).map(file => [file, readFileSync(`${FOLDER}${file}`, 'utf8')]);
// A metric that no router has: where a page shows it, it has read what is veiled.
const PLANTED = 231;

// The lines of a trace in which a router holds, says and is heard with another metric than it does, from a step on.
function planted(text, from, router, prefix) {
  const liars = new Set(), records = text.trimEnd().split('\n').map(line => JSON.parse(line));
  const change = (list, is) => list?.forEach(one => { if (is(one)) one.metric = PLANTED; });
  const plantIn = record => {
    const isOwn = one => record.router === router && one.prefix === prefix;
    for (const name of ['routes', 'changes']) change(record[name], isOwn);
    for (const sent of (record.sent ?? []).filter(one => one.router === router)) {
      const at = entriesOf(sent.bytes).findIndex(entry => entry.prefix === prefix);
      if (at < 0) continue;
      sent.bytes = sent.bytes.slice(0, 46 + 40 * at) + PLANTED.toString(16) + sent.bytes.slice(48 + 40 * at);
      liars.add(sent.datagram);
    }
    if (liars.has(record.event?.datagram)) change(record.offers, one => one.prefix === prefix);
  };
  return records.map((record, step) => { if (step > from) plantIn(record); return JSON.stringify(record); }).join('\n');
}

// All that the panes say at a step, whatever is chosen. Where routers stand is the same for the whole of an exercise.
const spotsOf = new Map();
function saidAt(name, whole, checks, step) {
  const trace = veiled(whole, checks), wiring = wiringOf(trace), prefix = '2001:db8::/32';
  if (!spotsOf.has(name)) spotsOf.set(name, layOut(wiring));
  const base = { trace, whole, checks, step, since: step - 1, chosen: null, typed: {}, place: 'branch', wiring, spots: spotsOf.get(name), shifts: [], pane: { width: 700, height: 500 }, guesses: new Map() };
  const routers = trace.ends.map((_, router) => router), last = trace.datagrams.length - 1;
  const things = [null, ...routers.flatMap(router => [`router ${router}`, `route ${router} ${prefix}`]), `packet 1 ${prefix}`, `datagram ${last}`, `datagram ${last - 1}`];
  const panes = things.filter(thing => thing === null || named(thing, trace)).flatMap(chosen => {
    const view = { ...base, chosen };
    return [detailOf(view), ...drawingOf(view).parts, verdictOf(view)];
  });
  const events = trace.steps.slice(0, step + 1).map((state, at) => eventOf(state, at, trace.names, openAt(base, at)));
  return [...[...panes, timelineOf(base, { width: 700, height: 500 }), ...tablesOf(base), matrixOf(base), tallyOf(base), ...events].map(pane => pane.text), printed(trace.steps[step])].join('\n');
}

export function exerciseCases({ ran, same, traceOf, three }) {
  const traceText = script => ran(runnable(script), '--trace');
  // The answers of an exercise in their order, each with the script in which those before it are filled in.
  function* blanksOf(script) {
    for (let text = script; ;) {
      const lines = traceText(text), whole = readTrace(lines, text), checks = checksOf(whole, expectationsOf(text), true), next = checks.find(({ isBlank }) => isBlank);
      if (!next) return;
      yield { text, lines, whole, checks, next };
      text = answered(text, next.line, next.found, next.found);
    }
  }
  const against = (exercise, solution) => {
    const folder = mkdtempSync(join(tmpdir(), 'exercise-')), file = join(folder, 'exercise.lab');
    writeFileSync(file, exercise);
    try { return ran(solution, '--against', file); } finally { rmSync(folder, { recursive: true }); }
  };
  return {
    // What is asked is replaced in the trace by what no router has, and nothing that is shown at any step up to the blank is other than
    // before: so none of it depends on the answer.
    'no pane tells what a blank asks for': () => {
      for (const [file, script] of exercises) {
        for (const { text, lines, whole, checks, next } of blanksOf(script)) {
          const from = Math.max(-1, ...checks.map(({ step }) => step).filter(step => step < next.step)), end = next.step;
          const other = readTrace(planted(lines, from, next.router, next.prefix), text);
          same(`the last step of ${file}`, veiled(whole, checks).steps.length, end + 1);
          const steps = [...new Set([from + 1, from + 2, Math.floor((from + end) / 2), end - 1, end])].filter(step => step > from && step <= end);
          for (const step of steps) {
            const [one, two] = [whole, other].map(trace => saidAt(file, trace, checks, step)), at = [...one].findIndex((sign, index) => sign !== two[index]);
            if (one !== two) throw new Error(`step ${step} of ${file}, line ${next.line}, tells: ${one.slice(Math.max(0, at - 150), at + 60)} | ${two.slice(at, at + 40)}`);
          }
        }
      }
    },
    // The panes would tell it, if the trace were not veiled: the case before can fail.
    'what is planted would be seen': () => {
      const { text, lines, next } = [...blanksOf(exercises.find(([file]) => file.includes('-02-'))[1])].at(-1), other = readTrace(planted(lines, -1, next.router, next.prefix), text);
      same('it', saidAt('-02-', other, [], next.step).includes(`>${PLANTED}<`), true);
    },
    // R1 has 3 by hand; 7 is wrong, and so is 2. The third answer is taken at the third try, the next at once.
    tries: () => {
      const script = `# Exercise.\n${three}rounds 3 0 15000\nexpect 1 2001:db8::/32 ?   # why?\nexpect 2 2001:db8::/32 ?\n`, at = script.split('\n').findIndex(line => line.startsWith('expect')) + 1;
      const lineOf = text => text.split('\n')[at - 1], once = answered(script, at, '7', '2'), twice = answered(once, at, '3', '2'), right = answered(twice, at, '2', '2');
      same('the lines', [once, twice, right].map(lineOf), ['expect 1 2001:db8::/32 ?   # why? # 1 wrong', 'expect 1 2001:db8::/32 ?   # why? # 2 wrong', 'expect 1 2001:db8::/32 2   # why? # try 3']);
      const done = answered(right, at + 1, '3', '3');
      same('the tries', [script, twice, right, done].map(text => Object.values(triesOf(text)).join()), ['2,0,0', '2,0,0', '2,1,0', '2,2,1']);
      same('the exercise again', blanked(done), script);
      same('the solution', solutionOf(done, 'x.lab').split('\n').at(-2), '# Solved: x.lab, 2 of 2, 1 at the first try.');
      same('marked', [against(script, solutionOf(done, 'x.lab')), against(script, twice) === ''], ['', false]);
    },
    // An answer that is typed and wrong is a blank, and what is right is not told.
    'an answer that is typed': () => {
      const script = `# Exercise.\n${three}rounds 3 0 15000\nexpect 1 2001:db8::/32 9\n`, trace = traceOf(runnable(script)), [check] = checksOf(trace, expectationsOf(script), isExercise(script));
      same('it', [check.isBlank, trace.steps.at(-1).record.record === 'refused', veiled(trace, [check]).steps.at(-1).routers[1].table.get('2001:db8::/32').route.metric], [true, false, '?']);
    },
    // By hand: R1 hears 1 of R0 over a cost of 2, R2 then hears of R1; what R1 holds is not told while it is asked.
    equations: () => {
      const told = [...blanksOf(exercises.find(([file]) => file.includes('-02-'))[1])].map(({ whole, checks, next }) => { veiled(whole, checks); return equationOf({ whole, checks }, next); });
      same('of a line', told, ['R0 advertises 1, and to receive it costs R1 2. What is the sum? Infinity is the most.',
        'Which updates has R2 received so far, and which prefixes do they advertise?', 'R0 originates it. Which metric has an owner?',
        'R1 advertises 3, and to receive it costs R2 5. What is the sum? Infinity is the most.']);
      for (const [file, script] of exercises) {
        for (const { whole, checks, next } of blanksOf(script)) {
          veiled(whole, checks);
          const text = equationOf({ whole, checks }, next).replaceAll(/\bR\d+|fe80:\S+|\b1[28]0 s/g, '');
          same(`whether the equation of ${file}, line ${next.line}, has ${next.found}: ${text}`, new RegExp(`\\b${next.found}\\b`).test(text), false);
        }
      }
    },
    // The same question of other costs: it runs, the remarks say the costs of the lines, a seed is always the same, and each exercise that has
    // costs has others for some seed.
    'other numbers': () => {
      const costsIn = text => text.split('\n').flatMap(line => /^\s*iface \S+ (\d+)/.exec(line)?.[1] ?? /^cost \S+ \S+ \S+ (\d+)/.exec(line)?.[1] ?? []);
      const toldIn = text => [...text.split('\n').filter(line => line.startsWith('#')).join(' ').matchAll(/\bcosts? (\d+)/g)].map(([, cost]) => cost);
      for (const [file, script] of exercises) {
        for (const seed of [1, 2, 3, 77]) {
          const other = varied(script, seed), costs = costsIn(other), before = costsIn(script);
          same(`seed ${seed} of ${file}, again`, varied(script, seed), other);
          same(`whether the costs of ${file} are others`, costs.join() !== before.join() && costs.every(cost => cost >= 1 && cost <= 15), true);
          same(`whether what is cheaper stays so in ${file}`, before.every((cost, at) => before.every((more, to) => Number(cost) < Number(more) === Number(costs[at]) < Number(costs[to]))), true);
          same(`what the remarks of ${file} tell`, toldIn(other).every(cost => costs.includes(cost)), true);
          const trace = readTrace(traceText(other), other), checks = checksOf(trace, expectationsOf(other), true);
          same(`the checks of ${file}`, [checks.length, trace.steps.at(-1).record.record === 'refused'], [expectationsOf(script).length, false]);
          const solved = checks.reduce((text, { line, found }) => answered(text, line, found, found), other);
          same(`the solution of ${file}`, [against(other, solutionOf(solved, file)), against(script, solved) === ''], ['', false]);
        }
      }
    },
    // R1 hears 1 of R0 and adds 1: in a quiz that is told where it comes, and neither the sum nor what R1 holds then.
    'a quiz keeps what happened': () => {
      const whole = traceOf(`${three}rounds 2 0 15000\n`), trace = quizzed(whole), step = trace.steps.findIndex(({ record }) => record.event?.kind === 'deliver' && record.router === 1);
      const view = { trace, whole, step, since: step - 1, chosen: null, typed: {}, place: 'end', wiring: wiringOf(trace), spots: layOut(wiringOf(trace)), shifts: [], pane: { width: 700, height: 500 }, isQuiz: true, guesses: new Map() };
      const plain = ({ text }) => text.replace(/<[^>]*>/g, ' ').replace(/\s+/g, ' ').trim(), detail = plain(detailOf(view)), event = plain(eventOf(trace.steps[step], step, trace.names, openAt(view, step)));
      same('what is told of it', [detail.includes('R1 receives datagram 4 from R0'), detail.includes('1 1 + 1 = ?'), detail.includes('= 2'), event.includes('at 2')], [true, true, false, false]);
      same('on the envelope', drawingOf(view).parts.some(({ text }) => /pile fresh[^]*class="told"[^>]*>1</.test(text)), true);
      same('of all tables', trace.steps.every(({ routers }) => routers.every(({ table }) => [...table.values()].every(({ route }) => route.metric === '?'))), true);
    },
    // What is behind the last question is kept where it tells no number and nothing of a result.
    'what a caption tells in a quiz': () => {
      const told = ['Question: how long? Answer: 16 rounds.', 'Router 0 withdraws the prefix. One round goes by. Router 1 believes 2.', 'It has 5. What has it now? Then it speaks.'].map(toldInQuiz);
      same('it', told, ['Question: how long?', 'One round goes by.', 'It has 5. What has it now? Then it speaks.']);
    },
    'how far an exercise is': () => {
      const [{ text, whole, checks }] = blanksOf(exercises[1][1]), plain = markup => markup.text.replace(/<[^>]*>/g, ' ').replace(/\s+/g, ' ').trim();
      same('at the start', plain(progressOf({ script: text, whole, checks, step: 0 })), '0 of 4, 0 at the first try. to the next blank');
      const solved = checks.reduce((script, { line, found }) => answered(script, line, found, found), text);
      same('at the end', plain(progressOf({ script: solved, checks: [], step: 0 })), '4 of 4, 4 at the first try. save the solution save the exercise again with other numbers');
    },
  };
}
