// The script as it is edited. The draft is what the text field holds; nothing but the functions below writes it. Each
// state that it was in can be gone back to, over a reload too. What was run is kept beside it (`showing.js`).
import { describe, hintOf } from './texts.js';
import { plainLines, runnable } from './lessons.js';
import { hasNumbers, keysOf } from './numbering.js';
import { settling } from './removing.js';
import { readTrace } from './trace.js';
import { html } from './markup.js';

// The pause after the last key before the script is run, and that between two states.
const PAUSE = 250, ONE_EDIT = 1000;
// `known` has the texts of drafts as this tab has seen them last; `isShared`: it came with a link, and was not changed yet.
const editor = { text: '', name: '', isShared: false, past: [], future: [], known: new Map(), typedAt: 0, timer: null, listed: null };
const isSaid = () => byId('editing').textContent;

// What is said stands above the script, and while the script has not the focus, over the foot of the window, where whoever
// clicked sees it.
function say(text, isBad = false, buttons = '') {
  const isTyping = document.activeElement === byId('script');
  byId('editing').className = [isBad ? 'bad' : '', isTyping ? '' : 'toast'].join(' ').trim();
  const close = isTyping || !text ? '' : html`<button data-act="hush" aria-label="close the message">×</button>`;
  fill('editing', html`<span>${text}</span>${buttons}${close}`);
  if (!text) byId('editing').textContent = '';
  clearTimeout(view.hushing);
  if (text && !isBad && !isTyping && !isRunning()) view.hushing = setTimeout(hush, 30_000);
}
const hush = () => say('');

// ---- The draft, and its states ----
const snapshot = () => ({ text: editor.text, name: editor.name, isShared: editor.isShared, step: view.step });

// A shared script that is changed becomes one's own, under a name that no other draft has.
const nameFor = text => editor.isShared ? freeName(editor.name, text) : editor.name;

function setDraft(text, name = nameFor(text), isShared = false) {
  if (text === editor.text && name === editor.name) return;
  editor.past.push(snapshot());
  Object.assign(editor, { future: [], typedAt: 0 });
  unfold();
  showDraft({ text, name, isShared });
}
// The script of a film is folded until it is asked for, or changes.
const unfold = () => document.body.classList.remove('film');

// A script that is no example any more has a name of its own. Another script has its own places.
const bareName = name => name.replace(/^own-/, '').replace(/-\d+\.lab$/, '.lab');
function showDraft({ text, name, isShared = false }) {
  if (bareName(name) !== bareName(editor.name)) view.isOther = true;
  const area = byId('script'), before = area.value, example = SCRIPTS.get(name)?.text === text;
  Object.assign(editor, { text, name: !example && SCRIPTS.has(name) ? freeName(`own-${name}`, text) : name, isShared });
  if (before !== text) {
    const at = [...text].findIndex((sign, index) => sign !== before[index]);
    area.value = text;
    if (at >= 0) area.setSelectionRange(at, at);
  }
  if (!example && !isShared) keepOwn();
  keepTab(editor);
  byId('name').value = editor.name;
  showScripts();
  showLesson();
  byId('undo').disabled = editor.past.length === 0;
  byId('redo').disabled = editor.future.length === 0;
  const lines = text.split('\n');
  if (byId('gutter').children.length !== lines.length) {
    fill('gutter', html`${lines.map((_, at) => html`<div data-choose="line ${at + 1}">${at + 1}</div>`)}`);
  }
}

// The draft outlives the page, under its name; where another tab has written there, or a shared script has the name of a
// draft, under a free one.
function keepOwn() {
  const { name, text, known } = editor, there = draftNamed(name)?.text;
  if (!text) return there === known.get(name) ? forgetDraft(name) : undefined;
  const isOthers = there !== undefined && there !== known.get(name) && there !== text;
  if (isOthers) editor.name = freeName(name, text);
  known.set(editor.name, text);
  return keepDraft(editor);
}

// The scripts to choose from: the drafts, and those of this file. A script that is not kept is none of them.
function showScripts() {
  const ofKind = kind => [...SCRIPTS].filter(([, script]) => script.kind === kind).map(([name]) => name);
  const kinds = [...new Set([...SCRIPTS.values()].map(({ kind }) => kind))], names = draftNames();
  const all = [['your own', names], ...kinds.map(kind => [kind, ofKind(kind)])];
  const groups = all.filter(([, listed]) => listed.length > 0);
  if (editor.listed !== names.join()) {
    fill('examples', html`<option value="" disabled>${editor.isShared ? 'shared script' : 'own script'}</option>${groups.map(([kind, listed]) =>
      html`<optgroup label="${kind}">${listed.map(name =>
        html`<option value="${name}">${titleInList(name)}</option>`)}</optgroup>`)}`);
  }
  editor.listed = names.join();
  byId('examples').value = editor.name;
  if (byId('examples').selectedIndex < 0) byId('examples').value = '';
}

// A lesson has its place in the course before its name.
function titleInList(name) {
  const at = lessonNames().indexOf(name), bare = name.replace(/\.lab$/, '');
  return at < 0 ? bare.replace(/^(own-)?exercise-/, '$1ex. ') : `${at + 1} ${bare.replace(/^\d+-/, '')}`;
}

// Where a lesson stands among all.
function showLesson() {
  const names = lessonNames(), at = lessonOf(editor.name), isLesson = at >= 0;
  byId('course').hidden = !isLesson;
  if (!isLesson) return;
  byId('lesson').textContent = `Lesson ${at + 1} of ${names.length}: ${SCRIPTS.get(names[at]).kind}`;
  buttonOf('lessonBefore').disabled = at === 0;
  buttonOf('lessonAfter').disabled = at === names.length - 1;
}

// A name for a script, which no other draft has.
function freeName(name, text) {
  let free = name;
  for (let number = 2; (draftNamed(free)?.text ?? text) !== text; number++) free = name.replace(/(\.lab)?$/, `-${number}$1`);
  return free;
}

// Another name takes the place of the draft's; that of an example stays its own.
function renameDraft() {
  const old = editor.name, name = freeName(byId('name').value.trim() || 'own.lab', editor.text);
  if (name !== old && draftNamed(old)?.text === editor.known.get(old)) forgetDraft(old);
  setDraft(editor.text, name);
}

function onTyped() {
  if (Date.now() - editor.typedAt > ONE_EDIT) editor.past.push(snapshot());
  Object.assign(editor, { typedAt: Date.now(), future: [] });
  const text = byId('script').value;
  showDraft({ text, name: nameFor(text) });
  clearTimeout(editor.timer);
  editor.timer = setTimeout(() => runDraft(), PAUSE);
}

// To another state, at the step that was shown there.
function travel(from, to) {
  if (from.length === 0) return;
  to.push(snapshot());
  editor.typedAt = 0;
  const state = from.pop();
  showDraft(state);
  runDraft(() => state.step ?? view.step);
}
const undo = () => travel(editor.past, editor.future);
const redo = () => travel(editor.future, editor.past);

// Another script takes the place of the draft, which can be gone back to.
function openScript(text, name, isShared = false) {
  const lines = plainLines(text);
  Object.assign(view, { chosen: null, room: 1, hints: new Set(), wrong: null });
  byId('welcome').hidden = true;
  setDraft(lines, isShared || SCRIPTS.has(name) ? name : freeName(name, lines), isShared);
  return runDraft(() => 0);
}
function openNamed(name) {
  const text = SCRIPTS.get(name)?.text ?? draftNamed(name)?.text;
  if (!SCRIPTS.has(name)) editor.known.set(name, text);
  return openScript(text, name);
}

// ---- Running it ----
const AGAIN = html`<button data-act="again">again</button>`;

// Makes what is to be shown of a run and hands it on, unless a later run begins meanwhile. What keeps it from running is said.
async function runScript(run, then) {
  clearTimeout(editor.timer);
  const made = run(), stop = html`<button data-act="stop" title="Escape">stop</button>`;
  const notice = setTimeout(() => say('running .. ', false, stop), PAUSE);
  showBusy();
  try {
    await then(await made);
  } catch (error) {
    if (error !== CALLED_OFF) say(`not run: ${error.message} `, true, AGAIN);
  } finally {
    clearTimeout(notice);
    showBusy();
  }
}

function stopRun() {
  callOff();
  say('The run was stopped. ', true, AGAIN);
}

function runDraft(stepOf) {
  const { text } = editor;
  return runScript(() => traced(runnable(text)), answer => showRun(text, answer, stepOf));
}

// An edit with the trace of its script, once its lines name the datagrams that they named before. So many turns that takes at
// most; where something was removed, one for each line that is set aside.
const MOST_TURNS = { added: 12, removed: 400 };
async function settledRun(edit) {
  const { trace: was, script: old } = view, isPlain = !edit.origins || !edit.renamed && !hasNumbers(edit.script);
  const most = edit.renamed ? MOST_TURNS.removed : MOST_TURNS.added, before = isPlain ? null : { old, was, had: keysOf(was, line => line, edit.renamed) };
  for (let turn = 0, text = edit.script, off = 0; ; turn++) {
    const answer = await traced(runnable(text));
    const next = isPlain || turn === most ? null : settling(before, { ...edit, script: text }, readTrace(answer, text));
    if (!next) return { script: text, answer, off };
    text = next.script;
    off += next.off;
  }
}

// A script that a click made becomes the draft, unless a line is refused before number `limit`; then the page shows what
// it did, up to the last step of line `goTo`.
function change(edit, limit, goTo, said = '') {
  const { text } = editor;
  return runScript(() => settledRun(edit), ({ script, answer, off }) => {
    const last = JSON.parse(answer.trimEnd().split('\n').at(-1) || '{}'), isRefused = last.record === 'refused';
    if (editor.text !== text) return say('The script was changed meanwhile: nothing was added.', true);
    if (isRefused && last.line < limit) {
      return say(`Not added: ${describe(last, view.trace.names).replace('refused: ', '')}${hintOf(last)}`, true);
    }
    setDraft(script);
    const isTold = !isRefused && said, shown = showRun(script, answer, goTo && (({ steps }) => stepOfLine(steps, goTo)), true);
    if (isTold) say(typeof said === 'function' ? said(off) : said, false, html`<button data-act="undo">undo</button>`);
    return shown;
  });
}
const stepOfLine = (steps, line) => steps.findLastIndex(({ record }) => record.line <= line);
