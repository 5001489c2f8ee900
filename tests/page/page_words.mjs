// Words of other languages, for tests/page/page.mjs: that none is missing, and how a text is looked up.
import { readFileSync, readdirSync } from 'node:fs';
import { fileURLToPath } from 'node:url';
import { GAP, hasWords, pairsIn, translatorOf } from '../../page/src/languages.js';
import { named, readTrace } from '../../page/src/trace.js';
import { checksOf, expectationsOf, isExercise, runnable } from '../../page/src/lessons.js';
import { equationOf, progressOf } from '../../page/src/exercises.js';
import { veiled } from '../../page/src/veiling.js';
import { layOut, wiringOf } from '../../page/src/layout.js';
import { drawingOf } from '../../page/src/drawing.js';
import { detailOf, eventOf, openAt } from '../../page/src/detail.js';
import { matrixOf, tablesOf, tallyOf } from '../../page/src/tables.js';
import { quizOf } from '../../page/src/quiz.js';
import { timelineOf } from '../../page/src/timeline.js';
import { LINES, REASONS } from '../../page/src/texts.js';
import { OUTCOMES } from '../../page/src/walks.js';
import { ENDS, verdictOf } from '../../page/src/forwarding.js';

const FOLDER = fileURLToPath(new URL('../../page/words/', import.meta.url)), files = readdirSync(FOLDER);
const wordsOf = file => readFileSync(`${FOLDER}${file}`, 'utf8');

// The texts that stand in the frame: between its tags, and in what is read of them.
function textsOfFrame() {
  const frame = readFileSync(fileURLToPath(new URL('../../page/src/frame.html', import.meta.url)), 'utf8');
  const [, body] = /<body>([^]*)<div id="own"/.exec(frame), plain = body.replace(/<!--[^]*?-->/g, '').replace(/<(code|svg)\b[^]*?<\/\1>/g, '<>');
  const between = plain.split(/<[^>]*>/), read = [...body.matchAll(/\b(?:title|aria-label)="([^"]*)"/g)].map(([, text]) => text);
  return [...between, ...read].map(text => text.trim().replace(/\s+/g, ' ')).filter(text => hasWords(text, ['Español', 'English', 'Deutsch', 'ripngd', 'lab']));
}

// The texts of a markup: what stands between tags, but for what is printed, and what is read of them.
function textsOf(markup) {
  const plain = text => text.replace(/&#(\d+);/g, (_, code) => String.fromCharCode(Number(code))).trim().replace(/\s+/g, ' ');
  const bare = markup.replace(/<(pre|code)\b[^]*?<\/\1>/g, '<>'), read = [...markup.matchAll(/\s(?:title|aria-label|label|placeholder)="([^"]*)"/g)].map(([, text]) => text);
  return [...bare.split(/<[^>]*>/), ...read].map(plain);
}

// What all panes say of a script at some of its steps, whatever is chosen there.
function* panesOf(script, text) {
  const whole = readTrace(text, script), checks = checksOf(whole, expectationsOf(script), isExercise(script)), trace = veiled(whole, checks), wiring = wiringOf(trace);
  const spots = layOut(wiring), prefix = trace.steps[0].routers.flatMap(({ prefixes }) => prefixes)[0]?.prefix, last = trace.steps.length - 1, steps = new Set([0, Math.floor(last / 3), Math.floor(2 * last / 3), last]);
  for (const { step } of checks) steps.add(step);
  yield* trace.steps.map((state, at) => eventOf(state, at, trace.names, openAt({ trace, step: at }, at)));
  for (const step of [...steps].filter(one => one >= 0 && one <= last)) {
    const view = { script, trace, whole, checks, step, since: step - 1, chosen: null, typed: {}, place: 'end', wiring, spots, shifts: [], pane: { width: 900, height: 600 }, guesses: new Map() };
    yield* [...tablesOf(view), matrixOf(view), tallyOf(view), verdictOf(view), quizOf(view), progressOf(view), ...drawingOf(view).parts, detailOf(view), timelineOf(view, { width: 900, height: 500 })];
    const datagram = trace.datagrams.findLast(({ sentAt }) => sentAt <= step)?.datagram, { router = 0 } = trace.steps[step].record;
    for (const chosen of [`router ${router}`, `iface ${router} 0`, `route ${router} ${prefix}`, `packet ${router} ${prefix}`, `packet ${router} ::1`, `datagram ${datagram}`]) {
      if (named(chosen, trace)) yield detailOf({ ...view, chosen, isFromAll: true });
    }
  }
  for (const check of checks.filter(({ isBlank, step }) => isBlank && step === last)) yield { text: equationOf({ whole }, check) };
}

export function wordCases({ ran, same }) {
  return {
    // Each text that a pane shows of a lesson, an exercise or an example has words, where it has letters that are no name.
    'what panes say has words': () => {
      const all = new Map(), allNames = new Set(), folder = fileURLToPath(new URL('../../examples/', import.meta.url));
      const scripts = ['', 'lessons/', 'exercises/'].flatMap(part => readdirSync(folder + part).filter(file => file.endsWith('.lab')).map(file => part + file));
      for (const file of scripts.filter(one => !/slowly|repeated|phases\.lab$|healing/.test(one))) {
        const script = readFileSync(folder + file, 'utf8').split('\n').map(line => line.startsWith('#') ? line : line.trim()).join('\n');
        const text = ran(runnable(script), '--trace'), names = [...readTrace(text, script).names.values()];
        for (const name of names) allNames.add(name);
        for (const pane of panesOf(script, text)) for (const said of textsOf(pane.text)) if (said && !all.has(said) && hasWords(said, names)) all.set(said, file);
      }
      same('how many there are', all.size > 1000, true);
      for (const file of files) {
        const within = new Set(), translate = translatorOf(wordsOf(file), gap => within.add(gap)), missing = [...all].filter(([said]) => translate(said) === null);
        same(`how many ${file} has no words for, as ${JSON.stringify(missing.slice(0, 40))}`, missing.length, 0);
        same(`what stands in gaps and has no words in ${file}`, [...within].filter(gap => hasWords(gap, [...allNames])), []);
      }
    },
    'languages have the same texts': () => {
      const [first, ...others] = files.map(file => pairsIn(wordsOf(file)).map(([english]) => english));
      same('how many languages there are', files.length >= 2, true);
      same('a text that is twice', first.filter((text, at) => first.indexOf(text) !== at), []);
      for (const [at, texts] of others.entries()) {
        same(`what ${files[at + 1]} lacks`, first.filter(text => !texts.includes(text)), []);
        same(`what only ${files[at + 1]} has`, texts.filter(text => !first.includes(text)), []);
      }
    },
    'each text has its gaps, and says something': () => {
      for (const file of files) {
        const count = text => [...text.matchAll(GAP)].length;
        same(`what is not whole in ${file}`, pairsIn(wordsOf(file)).filter(([english, other, ...more]) => !other || more.length > 0 || count(english) !== count(other)), []);
      }
    },
    // Those of the frame, of refusals, of lines, and of what becomes of an entry and of a packet.
    'no word is missing': () => {
      const laboratory = "The laboratory in it is the program's own code, a module of WebAssembly.";
      const all = [...textsOfFrame().filter(text => text !== laboratory), ...REASONS.values(), ...LINES.map(([, meaning]) => meaning), ...Object.values(OUTCOMES).filter(text => text !== '?')];
      same('how many there are', all.length > 200, true);
      const ways = Object.values(ENDS).map(end => `, ${end({ way: [0, 1], last: 'R2', nextHop: 'fe80::1', back: 'R1' })}.`);
      for (const file of files) {
        const translate = translatorOf(wordsOf(file));
        same(`what ${file} has no words for`, [...all, ...ways].filter(text => translate(text) === null), []);
      }
    },
    // A gap of one word stays; what a wider one has is looked up, too; numbers put gaps in another order.
    'how a text is looked up': () => {
      const translate = translatorOf('a round | eine Runde\nLine {}: {*} | Zeile {}: {*}\nLine {}: {*}, twice | Zeile {}: zweimal {*}\nby {=}. | mit {=}.\n{} of {} | {2} von {1}\n');
      same('it', ['a round', 'Line 3: a round', 'Line 3: a round, twice', 'Line 3: what', 'by a round.', '1 of 2', 'what'].map(text => translate(text)),
        ['eine Runde', 'Zeile 3: eine Runde', 'Zeile 3: zweimal eine Runde', 'Zeile 3: what', 'mit a round.', '2 von 1', null]);
      same('what has words', ['16', 'R1, 2001:db8::/32', 'vienna', 'a', '→ ✓', 'a route', 'é ñandú'].map(text => hasWords(text, ['vienna'])), [false, false, false, false, false, true, true]);
    },
  };
}
