// What the buttons of the page do. Each act on the network is lines of the script.
import { named, nameOf, prefixInView, readTrace } from './trace.js';
import { oneResponse, wholeRequest } from './datagrams.js';
import { captureOf } from './pcap.js';
import { targetIn } from './packets.js';
import { inserted, joined, mostOf, networkScript, ownLines, withName, withPlaces } from './building.js';
import { networkFrom } from './edges.js';
import { stepsByLine, turnsOf } from './losses.js';
import { losing } from './losing.js';
import { branched, branchesOf, switched, withoutBranch } from './branching.js';
import { without } from './removing.js';
import { metricIn, runnable } from './lessons.js';
import { answered, blanked, solutionOf, triesOf } from './exercises.js';
import { varied } from './varying.js';
import { comparisonOf, hasChanged, printed } from './tables.js';
import { html } from './markup.js';
import { markGuess, reveal } from './quiz.js';
import { stepOfNew } from './acting.js';
import { stepBeside, withoutAsking } from './asking.js';
import { wiringOf } from './layout.js';
import { plural, seconds } from './texts.js';

// The fields beside a button by name, the moment of the detail among them, if all of them hold what they may; else
// null, and the browser says which does not.
function fields(button) {
  const beside = button.closest('.choices, #build').querySelectorAll('input, select');
  const inputs = [...new Set([...byId('detail').querySelectorAll('[name=now]'), ...beside, ...fellows(button)])];
  if (!inputs.every(input => input.reportValidity())) return null;
  const values = Object.fromEntries(inputs.map(input => [input.name, input.value.trim()]));
  const { prefix = '', metric, tag = 0 } = values;
  return { ...values, ask: wholeRequest(), lie: metric && oneResponse(prefix.toLowerCase(), tag, metric) };
}
// Fields that a row further down shares with that of a forged Response: who sends it, and what.
const fellows = button => button.closest('details')?.parentElement.querySelector('.choices:has([name=source])')?.querySelectorAll('input') ?? [];

// Where new lines go: behind the line of this step, or at the end.
const placeLine = () => view.place === 'end' || isAtEnd() ? ownLines(editor.text) : current()?.record.line ?? 0;

// Whether what was run ends at this step, but for a line that is refused.
const isAtEnd = () => view.step >= view.trace.steps.length - (view.refused ? 2 : 1);
// Whether an act here sets aside what follows.
const setsAside = () => view.place === 'branch' && !isAtEnd();
const editHere = lines => setsAside() ? branched(view.trace, editor.text, view.step, lines)
  : inserted(editor.text, lines, view.place === 'here' && !isAtEnd() ? 'here' : 'end', placeLine());
// What is said of an act that sets something aside.
const setAside = ({ number }) => number ? `Done at this step, at ${seconds(current().now)}. What followed is set aside as a branch, and can be gone back to. ` : '';

async function canPutIn() {
  if (view.ran !== editor.text) await runDraft();
  if (view.ran !== editor.text || !view.wiring) return false;
  if (view.way === 'without') {
    say('This is what happens without asking. To change the script, press "with asking" first.', true);
    return false;
  }
  if (isOpen()) {
    say('This is an exercise: fill in its blanks first. Then the network is yours.', true);
    return false;
  }
  if (!view.refused || setsAside()) return true;
  say(`Line ${view.refused.line} is refused, so no line after it is reached. Correct it first, or undo.`, true);
  return false;
}

// Whether a blank is open: then nothing is done that would show what it asks.
const isOpen = () => view.checks.some(({ isBlank }) => isBlank);

// Lines are put in where the list says: at the end, or behind the line of this step.
async function putIn(lines, values = {}, said = '') {
  if (!await canPutIn()) return;
  const added = lines.replace(/\{(\w+)\}/g, (_, name) => values[name]).split('\n');
  const edit = editHere(added);
  await change(edit, edit.first + added.length, edit.first + added.length - 1, `${setAside(edit)}${said}`);
  view.typed = {};
}

// When the next round is: all regular updates are due then.
const nextRound = () =>
  Math.max(0, ...(stepOfNew(view)?.routers ?? []).flatMap(({ timers }) => [timers.last, timers.regular]));
const chosenRouter = () => named(view.chosen, view.trace).router;

// What a round would pass by: updates that are under way.
function passedBy() {
  const { datagrams } = view.trace, waiting = datagrams.filter(({ doneAt, lostAt, bytes }) =>
    Math.min(doneAt, lostAt) === Infinity && bytes.startsWith('02')).length;
  return waiting === 0 || !isAtEnd() ? '' : `${plural(waiting, 'datagram')} under way ${waiting === 1 ? 'is' : 'are'} lost: a
    round delivers its own. "deliver all" delivers them before.`;
}

// So many rounds are tried, and as many done as it takes until a route changes.
const MOST_ROUNDS = 20;
async function untilChange() {
  if (!await canPutIn()) return;
  const at = nextRound(), edit = editHere([`rounds ${MOST_ROUNDS} ${at} 30000`]);
  await runScript(() => traced(runnable(edit.script)), answer => {
    const trace = readTrace(answer, edit.script), own = stepsByLine(trace.steps).get(edit.first) ?? [];
    const ends = turnsOf(trace.steps, own).map(turn => turn.at(-1)), isOther = (step, router) =>
      hasChanged({ trace, step, since: own[0] - 1 }, router);
    const turn = ends.findIndex(step => trace.ends.some((_, router) => isOther(step, router)));
    if (turn < 0) return say(`No route changes within ${MOST_ROUNDS} rounds, ${MOST_ROUNDS / 2} minutes: the network has converged.`);
    return putIn(turn === 0 ? `round ${at}` : `rounds ${turn + 1} ${at} 30000`, {}, `A route changed in ${
      turn === 0 ? 'the next round' : `round ${turn + 1} from here, ${turn / 2} minutes later`}.`);
  });
}

// ---- Losing ----
async function lose(button) {
  if (!await canPutIn()) return;
  const edit = losing(view.trace, editor.text, Number(button.dataset.number), view.step, placeLine());
  if (edit.why) return say(edit.why, true);
  const isApart = edit.origins.filter((origin, at) => origin > 0 && origin === edit.origins[at - 1]).length > 1;
  await change(edit, edit.goTo + 1, edit.goTo, isApart ? 'The round was split into its datagrams, to lose one of them.' : 'The datagram is lost.');
}

// ---- Removing ----
async function remove({ dataset: { thing } }) {
  if (!await canPutIn()) return;
  const edit = without(view.trace, editor.text, thing), [kind, number] = thing.split(' ');
  const what = kind === 'link' ? `Link ${number}` : nameOf(view.trace, Number(number));
  view.chosen = null;
  await change(edit, 0, undefined, off => `${what} is removed, and with it ${plural(edit.lost, 'line')}.${off === 0 ? ''
    : ` ${off === 1 ? 'A line that does' : `${off} lines that do`} not hold without it: set aside as #off.`}`);
}

// ---- Branches ----
// To the branch of that number, at the step at which it leaves; what was shown is the branch then.
function toBranch({ dataset }) {
  const { number, line } = branchesOf(editor.text).find(one => one.number === Number(dataset.number)) ?? branchesOf(editor.text)[0] ?? {};
  if (!number) return say('There is no branch.', true);
  setDraft(switched(editor.text, number));
  return runDraft(({ steps }) => Math.max(0, stepOfLine(steps, line)));
}
function dropBranch({ dataset }) {
  setDraft(withoutBranch(editor.text, Number(dataset.number)));
  return runDraft().then(() => say('The branch is dropped.', false, html`<button data-act="undo">undo</button>`));
}

// What the routers hold at the end of each, beside each other, where it is not the same.
function compareBranch({ dataset }) {
  if (isOpen()) return say('This is an exercise: fill in its blanks first.', true);
  const { number, here, there } = branchesOf(editor.text).find(one => one.number === Number(dataset.number)) ?? branchesOf(editor.text)[0] ?? {};
  if (!number) return say('There is no branch.', true);
  const script = switched(editor.text, number);
  return runScript(() => traced(runnable(script)), answer => {
    fill('comparison', comparisonOf(view.trace, readTrace(answer, script), here, there));
    byId('compare').showModal();
  });
}

// ---- With and without asking ----
// The run without asking is made once it is wanted. It takes the place of the other, at the same moment, or stands beside it.
async function showAsking(way) {
  const { asking, script } = view, plain = asking && withoutAsking(script);
  if (!asking || view.isQuiz) return say('No line of this script is "asking".', true);
  if (!asking.other) await runScript(() => traced(plain), answer => {
    const other = readTrace(answer, plain);
    Object.assign(asking, { other, others: wiringOf(other) });
  });
  if (!asking.other || view.asking !== asking) return;
  const from = view.trace, to = way === 'without' ? asking.other : asking.trace, step = from === to ? view.step : stepBeside(from, to, view.step);
  view.way = way;
  if (from === to) return view.span ? undefined : render();
  const [wiring, checks] = way === 'without' ? [asking.others, []] : [asking.wiring, asking.checks];
  Object.assign(view, { trace: to, wiring, checks, eventsFrom: null, chosen: /^datagram/.test(view.chosen) ? null : view.chosen });
  return go(step, step - 1, false);
}
const ASKING_WAYS = ['with', 'beside', 'without'];

// ---- Networks of other programs ----
// What is wrong in the list stays beside it.
function makeOfEdges() {
  const { script, fault } = networkFrom(byId('edges').value);
  byId('pasted').textContent = fault ?? '';
  if (!script) return undefined;
  byId('pasting').close();
  return openScript(script, 'network.lab');
}

// ---- Quiz, and blanks ----
function toggleQuiz(button) {
  if (view.way !== 'with') showAsking('with');
  view.isQuiz = toggle(button, 'quiz');
  Object.assign(view, { chosen: null, trace: shownOf(view.whole, view.checks), eventsFrom: null });
  render();
  if (view.versus) compareWith(view.versus.kind);
}
function markAll() {
  for (const input of byId('quiz').querySelectorAll('[data-guess]')) markGuess(view, Number(input.dataset.guess), input.value);
  render();
}
function showGuesses(routers) {
  for (const router of routers) reveal(view, router);
  render();
}

// An answer is kept in the script: a right one in the place of the blank, and of a wrong one that it was.
function answerBlank(line) {
  const { found } = view.checks.find(check => check.line === line), text = byId('checks').querySelector(`[data-blank="${line}"]`).value;
  const metric = metricIn(text);
  if (metric === null) return say('A metric is 1 to 16, or none.', true);
  const script = answered(editor.text, line, metric, found), { step, since } = view;
  view.wrong = metric === found ? null : { line, text: metric };
  if (view.wrong) {
    keepText(script, showDraft);
    return render();
  }
  const { all, filled, first } = triesOf(script), said = `Right. ${filled} of ${all}, ${first} at the first try.`;
  return change({ script }, line, line, said).then(() => go(step, since, false));
}

function hint({ dataset }) {
  view.hints.add(Number(dataset.line));
  render();
}
const toBlank = () => go(view.checks.find(({ isBlank }) => isBlank)?.step ?? view.step);

// The name of the exercise that a draft is of, and its text.
function exerciseOf({ name, text }) {
  const own = [name, bareName(name), bareName(bareName(name))].find(one => SCRIPTS.has(one));
  return { name: own ?? name, text: own ? SCRIPTS.get(own).text : blanked(text) };
}
function openVaried(name, text, seed) {
  return openScript(varied(text, seed), name.replace(/(\.lab)?$/, `-${seed}.lab`));
}
function otherNumbers() {
  const { name, text } = exerciseOf(editor);
  return openVaried(name, text, 1 + Math.floor(999 * Math.random()));
}
function saveSolution() {
  download('-solved.lab', solutionOf(editor.text, exerciseOf(editor).name), 'text/plain');
}

// ---- Places, and other ways to show ----
// Where routers were moved stands in the script.
const keepPlaces = () => keepText(withPlaces(editor.text, view.shifts));
// A text whose trace is the same, with a state to go back to or without.
function keepText(text, keep = ({ text: next }) => setDraft(next)) {
  const isRan = view.ran === editor.text, isShown = view.script === editor.text;
  keep({ text, name: nameFor(text) });
  if (isRan) view.ran = editor.text;
  if (isShown) view.script = editor.text;
}

function toggle(button, name) {
  const isOn = document.body.classList.toggle(name);
  button.setAttribute('aria-pressed', isOn);
  return isOn;
}
function present(button) {
  view.isLarge = toggle(button, 'large');
  render();
}

// The drawing has so many times the room of its pane. The router that was chosen comes to its middle; else what stood there
// stays.
const MOST_ROOM = 8;
function zoomTo(room) {
  const pane = byId('drawing'), { scrollLeft, scrollTop, clientWidth, clientHeight } = pane;
  const was = { x: (scrollLeft + clientWidth / 2) / pane.scrollWidth, y: (scrollTop + clientHeight / 2) / pane.scrollHeight };
  view.room = Math.max(1, Math.min(MOST_ROOM, room));
  keepFocus(() => renderDrawing(false));
  const { router } = named(view.chosen, view.trace) ?? {}, svg = byId('network').getBoundingClientRect();
  const box = router !== undefined && pane.querySelector(`.router[data-router="${router}"] circle`).getBoundingClientRect();
  const at = box ? { x: box.x + box.width / 2 - svg.x, y: box.y + box.height / 2 - svg.y }
    : { x: was.x * pane.scrollWidth, y: was.y * pane.scrollHeight };
  pane.scrollTo(at.x - pane.clientWidth / 2, at.y - pane.clientHeight / 2);
}

// The lessons in order, and that which the draft is, or was made of.
const lessonNames = () => [...SCRIPTS].filter(([, { isLesson }]) => isLesson).map(([name]) => name);
const lessonOf = name => lessonNames().findIndex(lesson => lesson === name.replace(/^own-/, '').replace(/-\d+\.lab$/, '.lab') || lesson === name);
function toLesson(by) {
  const names = lessonNames(), at = lessonOf(editor.name), name = names[at < 0 ? 0 : at + by];
  return name && openNamed(name);
}

// A teacher's first picture, and the first of who opens the page.
const COUNTING = '11-ring-of-three.lab';
const ACTS = {
  count: () => openNamed(COUNTING).then(() => play(true)),
  undo, redo, unfold, share, copyLink, toBranch, dropBranch, compareBranch, present, lose, remove, untilChange, markAll, hush, quiz: toggleQuiz, again: () => runDraft(), stop: stopRun,
  film: saveFilm,
  save: () => download('.lab', editor.text, 'text/plain'),
  load: () => byId('file').click(),
  pcap: () => view.wiring && (isOpen() ? say('This is an exercise: fill in its blanks first.', true) : download('.pcapng', captureOf(view.trace), 'application/octet-stream')),
  svg: () => view.wiring && download('.svg', drawingAlone(), 'image/svg+xml'),
  copy: () => copy(printed(current()), `The routes at step ${view.step + 1}`),
  round: () => putIn(`round ${nextRound()}`, {}, passedBy()),
  rounds: () => putIn(`rounds 5 ${nextRound()} 30000`, {}, passedBy()),
  runMinute: () => putIn('run +60000'),
  ticks: () => putIn(view.trace.ends.map((_, router) => `tick ${router} ${nextRound()} 0`).join('\n')),
  hear: () => putIn('hear'),
  help: () => byId('help').showModal(),
  close: button => button.closest('dialog').close(),
  tidy() { view.shifts = []; keepPlaces(); render(); },
  times: () => toggleView('hasTimes'),
  hops: () => toggleView('hasHops'),
  send: () => toggleView('isSending'),
  fromAll() { view.isFromAll = !view.isFromAll; render(); },
  makePasted: makeOfEdges,
  zoomIn: () => zoomTo(view.room * 1.4),
  zoomOut: () => zoomTo(view.room / 1.4),
  zoomWhole: () => zoomTo(1),
  matrix() { view.isMatrix = !(view.isMatrix ?? view.trace.ends.length >= MANY_ROUTERS); render(); },
  why: () => choose(`route ${chosenRouter()} ${prefixInView(view)}`),
  letGo: () => choose(null),
  toNetwork: () => byId('drawing').querySelector('[tabindex="0"]')?.focus(),
  asking: ({ dataset }) => showAsking(dataset.way),
  answer: ({ dataset }) => answerBlank(Number(dataset.line)), hint, toBlank, otherNumbers, saveSolution,
  saveExercise: () => download('-blank.lab', blanked(editor.text), 'text/plain'),
  reveal: ({ dataset }) => showGuesses([Number(dataset.router)]),
  revealAll: () => showGuesses(view.trace.ends.keys()),
  lessonBefore: () => toLesson(-1),
  lessonAfter: () => toLesson(1),
};
// Those that read the fields beside them.
const MAKES = {
  make({ shape, many }) {
    if (shape === 'list') return byId('pasting').showModal();
    if (Number(many) > mostOf(shape)) return say(`A network of the shape "${shape}" has at most ${mostOf(shape)} routers here.`, true);
    return openScript(networkScript(shape, Number(many)), `${shape}-${many}.lab`.replace(/ /g, '-'));
  },
  packet({ target }) {
    const asked = targetIn(target);
    if (!asked) return say('That is no address and no prefix of IPv6.', true);
    Object.assign(view, { chosen: `packet ${chosenRouter()} ${asked}`, typed: {} });
    return render();
  },
  name: ({ name }) => change({ script: withName(editor.text, chosenRouter(), name) }, Infinity),
  async join({ other, cost }) {
    if (!await canPutIn()) return;
    const aside = setsAside() ? branched(view.trace, editor.text, view.step, []) : null, script = aside?.script ?? editor.text;
    const edit = joined(script, chosenRouter(), Number(other), Number(cost), aside ? ownLines(script) : placeLine());
    if (edit && aside) edit.origins = edit.origins.map(line => line ? aside.origins[line - 1] : 0);
    if (!edit) return say('Choose another router.', true);
    const to = nameOf(view.trace, Number(other)), said = edit.isLate
      ? `Link ${edit.link} to ${to} comes up now. In the script it stands from the start, and is cut until here.` : '';
    await change(edit, Infinity, edit.isLate ? ownLines(edit.script) : undefined, `${setAside(aside ?? {})}${said}`);
  },
};

// The drawing as a file: each element with its colors, as there is no style sheet in it.
const STYLES = ['fill', 'stroke', 'stroke-width', 'stroke-dasharray', 'font-size', 'font-weight', 'font-family',
  'text-anchor', 'dominant-baseline', 'paint-order', 'visibility', 'opacity', 'stroke-linecap'];
function drawingAlone() {
  const drawing = byId('drawing').querySelector('svg'), alone = drawing.cloneNode(true);
  const styled = alone.querySelectorAll('*');
  drawing.querySelectorAll('*').forEach((element, index) => {
    const style = getComputedStyle(element);
    for (const name of STYLES) styled[index].setAttribute(name, style.getPropertyValue(name));
  });
  return new XMLSerializer().serializeToString(alone);
}
