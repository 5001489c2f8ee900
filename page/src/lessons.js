// Lessons: the remarks of a script as captions, and its expectations, those with a blank among them, as checked.
import { routeAt } from './trace.js';
import { namesOf } from './building.js';
import { UNREACHABLE, prefixKey } from './datagrams.js';

// A remark without its drawing: what stands behind an empty remark line and is indented, or has a link in it. What
// the page writes, places and branches, and a line that was set aside are no remarks.
const DRAWN = /^\s|--|^[\s|/\\+-]+$/;
const isOfPage = line => /^#(?:(?:places|off|fork|branch) |\|)/.test(line);
// What is longer is told up to here: a browser lays out all of it at each step.
const MOST_PROSE = 5000;
function proseOf(block) {
  let isBehindGap = false;
  const kept = block.filter(text => {
    if (text.trim() === '') isBehindGap = true;
    return text.trim() !== '' && !(isBehindGap && DRAWN.test(text));
  });
  const prose = kept.join(' ');
  return prose.length > MOST_PROSE ? `${prose.slice(0, MOST_PROSE)} …` : prose;
}

// The remark that was last before a line, for each line by its number; and behind them that at the script's end. What a script
// asks first stays while its network is written down: a remark before a router or an interface is of that line.
export function captionsOf(script) {
  const captions = [''];
  let caption = '', block = [];
  let isBuilt = false;
  for (const line of [...script.split('\n'), 'end']) {
    const isRemark = line.startsWith('#'), isOfNetwork = !isBuilt && caption && /^(router|iface|own)\b/.test(line);
    isBuilt ||= line.startsWith('cold');
    if (isRemark && !isOfPage(line)) block.push(line.replace(/^#+ ?/, ''));
    else if (!isRemark && line !== '' && block.length > 0) {
      [caption, block] = [!isOfNetwork && proseOf(block) || caption, []];
    }
    captions.push(caption);
  }
  return captions;
}

// A caption with the names that routers have in the drawing: "router 1" is R1, and "routers 1 and 2" are R1 and R2.
export function withDrawnNames(caption, nameOf) {
  return caption.replace(/\b[Rr]outers? (\d+(?:(?:, | and | to )\d+)*)\b/g, (_, numbers) => numbers.replace(/\d+/g, number => nameOf(Number(number))));
}

// A caption in two: what it says, and the answer that it ends with.
export function withAnswerApart(caption) {
  const [prose, answer = ''] = caption.split(/\s*\bAnswer: */);
  return { prose, answer };
}

// What is told of a caption in a quiz: what it asks, up to its last question mark, and each sentence behind it that tells no number and
// nothing of a result; no answer.
export const questionIn = caption => /^[^]*\?/.exec(caption.split('Answer:')[0])?.[0] ?? '';
const TELLS = /\d|\b(?:none|nothing|no (?:route|path)|infinity|unreachable|believes?|keeps?|poison\w*|lost|gone|loop|worse|better|again)\b/i;
export function toldInQuiz(caption) {
  const asked = questionIn(caption), rest = caption.split('Answer:')[0].slice(asked.length).trim();
  return [asked, ...rest.split(/(?<=[.:;!]) +/).filter(text => text && !TELLS.test(text))].filter(Boolean).join(' ').trim();
}

// The text of a file as a script: what editors put at its start and at the ends of lines goes, and a tab is a blank.
const plainLine = line => /^(#|say )/.test(line) ? line : line.replaceAll('\t', ' ');
export const plainLines = text =>
  text.replace(/^\ufeff/, '').split(/\r\n?|\n/).map(line => plainLine(line.trim())).join('\n');

// ---- Expectations ----
// `expect R PREFIX ?` has a blank: the page runs the script with a remark in its place.
const EXPECTED = /^expect (\S+) (\S+) (\?|\d+|none)(?= *(?:#|$))/;
// Of an exercise it marks each answer itself, and a wrong one is a blank.
export const runnable = script =>
  script.replace(isExercise(script) ? /^expect \S+ \S+ (?:\?|\d+|none)(?= *(?:#|$))/gm : /^expect \S+ \S+ \?(?= *(?:#|$))/gm, '#$&');

// Whether a script has blanks, or had some that were filled in here (`exercises.js`).
const IS_EXERCISE = /^# Exercise\b|^expect \S+ \S+ (?:\?(?= *(?:#|$))|\S+ *#.*\b(?:first try|try \d+)$)/m;
export const isExercise = script => IS_EXERCISE.test(script);

export function expectationsOf(script) {
  const numbers = new Map([...namesOf(script)].map(([router, name]) => [name, router]));
  return script.split('\n').flatMap((text, at) => {
    const [, router, prefix, wanted] = EXPECTED.exec(text) ?? [];
    return router ? [{ line: at + 1, router: numbers.get(router) ?? Number(router), prefix, wanted }] : [];
  });
}

// A script with an answer in the place of the blank of a line.
export function withAnswer(script, line, answer) {
  const lines = script.split('\n');
  return lines.with(line - 1, lines[line - 1].replace(/^(expect \S+ \S+) \S+/, `$1 ${answer}`)).join('\n');
}

// What a router has at a step: a metric or `none`, as `expect` writes it.
export function foundAt(state, router, prefix) {
  const direct = routeAt(state, router, prefix), key = prefixKey(prefix.toLowerCase());
  const like = () => [...state.routers[router].table.values()].find(({ route }) => prefixKey(route.prefix) === key)?.route;
  return String((direct ?? like())?.metric ?? 'none');
}

// Each expectation that the run came to, with the step behind which it stands, and what was found there. In an exercise one that is
// not met is as open as a blank.
export function checksOf({ steps, ends }, expectations, isMarked = false) {
  const last = steps.at(-1)?.record, reached = last?.record === 'refused' ? last.line : Infinity;
  const before = line => steps.findLastIndex(({ record }) => record.line < line && record.record !== 'refused');
  return expectations.filter(({ line, router }) => line <= reached && ends[router] && before(line) >= 0).map(one => {
    const step = before(one.line), found = foundAt(steps[step], one.router, one.prefix);
    return { ...one, step, found, isBlank: one.wanted === '?' || isMarked && one.wanted !== found, isMet: one.wanted === found };
  });
}

// What a text says as a metric: a number from 1 to 16, or none; else null.
export function metricIn(text) {
  const word = text.trim().toLowerCase();
  if (/^(none|no|-|–)$/.test(word)) return 'none';
  if (/^(inf|infinity|∞|unreachable)$/.test(word)) return String(UNREACHABLE);
  return /^\d+$/.test(word) && Number(word) >= 1 && Number(word) <= UNREACHABLE ? String(Number(word)) : null;
}
