// What the page shows: its state, and the panes, which are drawn from it.
import { minutesOf, nameOf, named, readTrace } from './trace.js';
import { isDrawn, keptSpots, layOut, notDrawn, wiringOf } from './layout.js';
import { placesOf } from './building.js';
import { branchesOf } from './branching.js';
import { captionsOf, checksOf, expectationsOf, isExercise, plainLines, toldInQuiz, withAnswerApart, withDrawnNames } from './lessons.js';
import { equationOf, progressOf } from './exercises.js';
import { quizzed, veiled } from './veiling.js';
import { describe, hintOf, seconds } from './texts.js';
import { askingText, hasAsking } from './asking.js';
import { html } from './markup.js';
import { drawingOf } from './drawing.js';
import { detailOf, eventOf, openAt } from './detail.js';
import { linesTold, matrixOf, tablesOf, tallyOf } from './tables.js';
import { quizOf } from './quiz.js';
import { verdictOf } from './forwarding.js';

const byId = id => document.getElementById(id);
const fill = (id, markup) => { byId(id).innerHTML = markup.text; };
// The same where it may be as before: what is read aloud is not put in again.
function refill(id, { text }) {
  const pane = byId(id);
  if (pane.shown !== text) pane.innerHTML = text;
  pane.shown = text;
}
// The scripts of this file, its own before the lessons and the examples.
const SCRIPTS = new Map([...document.querySelectorAll('#own > div, #scripts > div')].map(script =>
  [script.dataset.name, { text: plainLines(script.textContent), kind: script.dataset.kind ?? 'of this file', isLesson: 'lesson' in script.dataset }]));

// What is shown: a script that was run with its trace, a step of it, that since which changes are marked, what was chosen,
// and what was typed into fields. Of the `whole` trace there is what may be told. The script that was run last, `ran`, may have no network; then `stale` is true, and the
// last network shows. Of a script with a line `asking` both runs can be seen, each alone or beside each other, by `way`.
const view = {
  script: '', trace: readTrace(''), whole: readTrace(''), step: 0, since: -1, chosen: null, typed: {}, ran: null, refused: null, stale: false,
  wiring: null, spots: [], shifts: [], captions: [''], checks: [], eventsFrom: null, place: 'branch',
  asking: null, way: 'with', versus: null, hasTimes: false, hasHops: false, isSending: false, isLarge: false, isQuiz: false, guesses: new Map(), hints: new Set(), isMatrix: null, filter: '', room: 1, isFromAll: false,
};
const current = () => view.trace.steps[view.step];

// ---- What was run is shown ----
// Of what was `added` all is played, from the step before it.
function showRun(script, text, stepOf = () => view.step, isAdded = false) {
  const trace = readTrace(text, script), last = trace.steps.at(-1)?.record, hasNetwork = trace.ends.length > 0;
  const refused = last?.record === 'refused' ? last : null, before = isAdded ? stepAsBefore(view.whole, trace) : -1, isBeside = view.way === 'beside';
  Object.assign(view, { ran: script, refused, stale: !hasNetwork && view.wiring !== null });
  const rest = refused?.why.startsWith('expected') ? '. Nothing behind it was run.' : '';
  if (refused) say(`Line ${refused.line}: ${describe(refused, trace.names)}${hintOf(refused)}${rest}`, true);
  else say(hasNetwork ? '' : 'no network yet: the script has no line "cold NOW"');
  if (!view.stale) showTrace(script, trace);
  const step = stepOf(view.trace);
  if (isAdded && before >= 0 && step > before) playSpan(before, step);
  else go(step);
  if (isBeside && view.asking) showAsking('beside');
  else if (view.versus) compareWith(view.versus.kind);
}

// The last step up to which two traces are the same.
function stepAsBefore({ steps: old }, { steps }) {
  const isSame = step => JSON.stringify({ ...old[step].record, line: 0 }) === JSON.stringify({ ...steps[step].record, line: 0 });
  let step = 0;
  while (step < Math.min(old.length, steps.length) && isSame(step)) step++;
  return step - 1;
}

// Routers stay where they are while the network has a link or a router more or less.
function showTrace(script, trace) {
  const had = view.trace, wired = view.wiring;
  const checks = checksOf(trace, expectationsOf(script), isExercise(script));
  Object.assign(view, { script, whole: trace, trace: shownOf(trace, checks), checks, captions: captionsOf(script), shifts: placesOf(script), eventsFrom: null });
  view.wiring = trace.ends.length > 0 ? wiringOf(trace) : null;
  const isOffered = view.wiring && hasAsking(script) && !checks.some(({ isBlank }) => isBlank);
  Object.assign(view, { asking: isOffered ? { trace, checks, wiring: view.wiring, other: null } : null, way: 'with' });
  const kept = !view.isOther && wired && view.wiring && view.spots.length > 0 ? keptSpots(view.spots, had, wired, trace, view.wiring) : null;
  view.spots = kept ?? (view.wiring ? layOut(view.wiring) : []);
  view.isOther = false;
  if (!named(view.chosen, trace)) view.chosen = null;
  fill('moments', html`${minutesOf(view.trace).map(({ step, minute }) => html`<option value="${step}" label="${minute} min"></option>`)}`);
}

// What the panes get of a trace: in a quiz no result, and of an exercise what comes before an open blank.
function shownOf(trace, checks) {
  const shown = veiled(trace, checks);
  return view.isQuiz ? quizzed(shown) : shown;
}

// ---- Rendering ----
// The focus stays on what had it, though a pane is drawn anew; and Tab comes to one thing of each pane, by `stops`.
const PANES = ['drawing', 'timeline', 'tables', 'events'], stops = {};
const itemsOf = pane => [...pane.querySelectorAll('button, input, [tabindex]')];
function keepFocus(draw) {
  const had = document.activeElement, pane = had?.closest('#drawing, #timeline, #tables, #events, #detail, #quiz, #checks');
  const at = pane ? itemsOf(pane).indexOf(had) : -1;
  draw();
  for (const id of PANES) {
    const find = words => byId(id).querySelector(words), { text, stop } = stops[id] ?? {};
    const chosen = text && find(`[tabindex][data-choose="${CSS.escape(text)}"]`);
    const next = chosen || find('li.now [tabindex]') || find('.router[tabindex]') || find('[tabindex]');
    stop?.setAttribute('tabindex', -1);
    next?.setAttribute('tabindex', 0);
    stops[id] = { text, stop: next };
  }
  if (!pane || had.isConnected) return;
  const items = itemsOf(pane), { choose } = had.dataset;
  const again = choose && items.find(item => item.dataset.choose === choose);
  (again || items[at] || items.at(-1))?.focus({ preventScroll: true });
}

// Scrolls to it where the panes stand side by side; on a narrow window the page itself would jump.
const SIDE_BY_SIDE = '(min-width: 1181px), (min-width: 901px) and (min-height: 701px)';
function follow(element) {
  if (matchMedia(SIDE_BY_SIDE).matches) element?.scrollIntoView({ block: 'nearest', inline: 'nearest' });
}

function mark(list, name, index) {
  for (const other of list.querySelectorAll(`.${name}`)) other.classList.remove(name);
  list.children[index]?.classList.add(name);
}

function render(flying = false) {
  const { steps } = view.trace, { record, now } = current() ?? {};
  document.body.classList.toggle('stale', view.stale);
  document.body.classList.toggle('chosen', view.chosen !== null);
  byId('where').textContent = record ? `step ${view.step + 1} of ${view.way === 'without' ? steps.length : view.whole.steps.length}, at ${seconds(now)}` : '';
  Object.assign(byId('slider'), { max: Math.max(0, steps.length - 1), value: view.step });
  const happened = record ? `line ${record.line}, ${describe(record, view.trace.names, openAt(view, view.step))}` : '';
  byId('slider').setAttribute('aria-valuetext', record ? `${seconds(now)}, ${happened}` : '');
  byId('slider').title = record ? `${seconds(now)} of ${seconds(steps.at(-1).now)}` : '';
  if (!view.span) refill('happened', html`${happened}`);
  renderCaption();
  renderAsking();
  renderBranches();
  renderVersions();
  renderViews();
  keepFocus(() => {
    renderScript();
    renderEvents();
    renderChecks();
    fill('detail', html`${view.chosen ? html`<button data-act="letGo" title="Escape">close</button>` : ''}${detailOf(view)}`);
    renderTimeline();
    renderDrawing(flying);
    renderTables();
  });
  follow(byId('drawing').querySelector('.moved'));
  follow(byId('tables').querySelector('.now'));
  writeAddress();
}

// The remark that is last before the line of the step; at the last step that at the end, too.
function renderCaption() {
  const { record } = current() ?? {}, isLast = view.step === Math.max(view.trace.steps.length, view.way === 'without' ? 0 : view.whole.steps.length) - 1;
  const captions = [view.captions[record?.line], isLast && view.captions.at(-1)].filter(Boolean);
  const name = router => nameOf(view.trace, router);
  const told = [...new Set(captions)].map(caption => withAnswerApart(withDrawnNames(view.isQuiz ? toldInQuiz(caption) : caption, name)));
  refill('caption', html`${told.map(({ prose }) => prose && html`<span class="paragraph">${prose}</span> `)}`);
  refill('answer', html`${told.map(({ answer }) => answer && html`<b>Answer</b> <span>${answer[0].toUpperCase()}${answer.slice(1)}</span>`)}`);
}

// What was set aside where the script goes another way.
function renderBranches() {
  if (view.forked === view.script) return;
  view.forked = view.script;
  const button = (act, number, text) => html`<button data-act="${act}" data-number="${number}">${text}</button> `;
  refill('branches', html`${branchesOf(view.script).map(({ number, line, there }) => html`<span class="branch">Set aside in line ${line}:
    <i>${linesTold(there)}</i> ${button('toBranch', number, 'go to it')}${button('compareBranch', number, 'compare')}${button('dropBranch', number, 'drop it')}</span>`)}`);
}

// Both ways of a script with a line `asking`, and what they differ in.
function renderAsking() {
  const { asking, way } = view, pane = byId('asking');
  pane.hidden = !asking || view.isQuiz;
  for (const button of pane.querySelectorAll('button')) button.setAttribute('aria-pressed', button.dataset.way === way);
  fill('asked', asking?.other ? askingText(view) : html``);
  byId('beside').hidden = way !== 'beside' || pane.hidden;
  byId('drawing').dataset.run = byId('beside').hidden && way !== 'without' ? '' : `${way === 'without' ? 'without' : 'with'} asking`;
}

// What the script expects behind the step, as checked; a blank is a field.
function renderChecks() {
  const { trace: { names }, checks } = view, here = view.isQuiz ? [] : checks.filter(({ step }) => step > view.since && step <= view.step);
  const name = router => names.get(router) ?? `R${router}`;
  fill('checks', html`${here.map(({ line, router, prefix, wanted, found, isBlank, isMet, step }) => isBlank ? html`<span class="check blank choices">
    <label>line ${line}: the metric of ${name(router)} for ${prefix} is <input name="blank-${line}" data-blank="${line}" size="5"
    autocomplete="off" value="${view.typed[`blank-${line}`]}"></label><button data-act="answer" data-line="${line}">check</button>
    <button data-act="hint" data-line="${line}">hint</button> ${notRight(line, wanted)}
    ${view.hints.has(line) ? html`<span class="hint">${equationOf(view, { router, prefix, step })}</span>` : ''}</span>`
    : html`<span class="check ${isMet ? 'met' : 'unmet'}" title="line ${line}">${isMet ? '✓' : '✗'} ${name(router)}, ${prefix}: expected ${wanted},
    found ${found}</span>`)}${view.isQuiz ? '' : progressOf(view)}`);
}
function notRight(line, wanted) {
  const text = wanted === '?' ? view.wrong?.line === line && view.wrong.text : wanted;
  return text ? html`<span class="bad">✗ not ${text}</span>` : '';
}

// Only the parts of a pane that are other than before are put in anew; of a table as long as before only such rows.
function patch(pane, kind, parts) {
  while (pane.children.length > parts.length) pane.lastChild.remove();
  parts.forEach(({ text }, at) => {
    const old = pane.children[at] ?? pane.appendChild(document.createElementNS(pane.namespaceURI, kind));
    if (old.shown !== text) replace(old, text);
    old.shown = text;
  });
}

function replace(old, text) {
  const [before, after] = [old.shown ?? '', text].map(markup => markup.split(/(?=<(?:caption|thead|tr)\b)/));
  const rows = [...old.querySelectorAll('caption, thead, tr')], isSame = (piece, at) => piece === before[at];
  if (after.length !== before.length || after.length !== rows.length + 1 || !isSame(after[0], 0)) old.innerHTML = text;
  else after.forEach((piece, at) => { if (!isSame(piece, at)) rows[at - 1].outerHTML = piece; });
}

function renderDrawing(flying) {
  drawIn(byId('drawing'), view, flying);
  if (!byId('beside').hidden) drawIn(byId('beside'), viewBeside(view, view.asking.trace, { trace: view.asking.other, wiring: view.asking.others }), false);
  drawVersions();
  sendPackets();
  byId('nothing').hidden = isDrawn(view.trace);
  if (!isDrawn(view.trace)) byId('nothing').textContent = notDrawn(view.trace);
}

function drawIn(place, view, flying) {
  const { clientWidth, clientHeight } = place, svg = place.querySelector('svg'), head = parseFloat(getComputedStyle(place).paddingTop);
  const pane = { width: view.room * clientWidth, height: view.room * (clientHeight - head) }, isThere = view.wiring !== null && isDrawn(view.trace);
  const { width, height, zoom = 1, scale = 1, roomy, parts } = isThere ? drawingOf({ ...view, flying, pane }) : { ...pane, parts: [] };
  const attributes = { width: isThere ? width * zoom : 0, height: isThere ? height * zoom : 0, viewBox: `0 0 ${width} ${height}`, class: roomy ? 'roomy' : '' };
  for (const [name, value] of Object.entries(attributes)) svg.setAttribute(name, value);
  view.pixels = zoom * scale;
  patch(svg.querySelector(':scope > g'), 'g', parts);
  for (const mark of svg.querySelectorAll('[data-motion]:not([data-motion=""])')) mark.style = mark.dataset.motion;
}

// From so many routers on the matrix stands first.
const MANY_ROUTERS = 10;
function renderTables() {
  const isMatrix = view.isMatrix ?? view.trace.ends.length >= MANY_ROUTERS, isThere = view.wiring !== null;
  byId('matrix').textContent = isMatrix ? 'show tables' : 'show matrix';
  refill('verdict', isThere && !view.isQuiz ? verdictOf(view) : html``);
  refill('tally', isThere ? tallyOf(view) : html``);
  fill('quiz', isThere && view.isQuiz ? quizOf(view) : html``);
  patch(byId('tables'), 'div', !isThere || view.isQuiz ? [] : isMatrix ? [matrixOf(view)] : tablesOf(view));
}

// Of a long list the events near the step are there.
const NEAR = 300;
function renderEvents() {
  const { steps } = view.trace, list = byId('events');
  const from = steps.length > 2 * NEAR ? Math.max(0, Math.floor(view.step / NEAR) * NEAR - NEAR / 2) : 0;
  if (from !== view.eventsFrom) {
    fill('events', html`${steps.slice(from, from + 2 * NEAR).map((state, index) => eventOf(state, from + index, view.trace.names, openAt(view, from + index)))}`);
    view.eventsFrom = from;
  }
  mark(list, 'now', view.step - from);
  [...list.children].forEach((one, index) => one.classList.toggle('since', index + from > view.since && index + from < view.step));
  follow(list.children[view.step - from]);
}

// The lines of now, of a refusal and of expectations are marked. The text field leads, and the numbers beside it follow.
const LINE_HEIGHT = 20;
function renderScript() {
  const area = byId('script'), now = view.stale ? undefined : current()?.record.line, refused = view.refused?.line;
  mark(byId('gutter'), 'now', now - 1);
  mark(byId('gutter'), 'refused', refused - 1);
  if (view.marked !== view.checks || view.isMarkedQuiz !== view.isQuiz) markChecks();
  area.style = `--now-line: ${now ?? -99}; --refused-line: ${refused ?? -99}`;
  if (document.activeElement === area && !area.readOnly || now === undefined) return;
  const top = 4 + (now - 1) * LINE_HEIGHT, least = top + 3 * LINE_HEIGHT - area.clientHeight;
  area.scrollTop = Math.min(Math.max(area.scrollTop, least), Math.max(0, top - 2 * LINE_HEIGHT));
  byId('gutter').scrollTop = area.scrollTop;
}

function markChecks() {
  const kinds = new Map(view.checks.map(({ line, isBlank, isMet }) => [line, isBlank ? 'blank' : isMet ? 'met' : 'unmet']));
  [...byId('gutter').children].forEach((line, at) => {
    const kind = view.isQuiz ? null : kinds.get(at + 1);
    for (const name of ['met', 'unmet', 'blank']) line.classList.toggle(name, name === kind);
  });
  Object.assign(view, { marked: view.checks, isMarkedQuiz: view.isQuiz });
}
