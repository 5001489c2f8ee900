// The page comes up: what it listens to, and its address.
import { named } from './trace.js';
import { html } from './markup.js';
import { cardOf } from './detail.js';

function listen() {
  for (const [id, [, act]] of Object.entries(MOVES)) byId(id).onclick = act;
  byId('script').onscroll = () => { byId('gutter').scrollTop = byId('script').scrollTop; };
  byId('script').oninput = onTyped;
  byId('name').onchange = renameDraft;
  byId('examples').onchange = ({ target }) => openNamed(target.value);
  byId('place-of-page').oninput = onPlace;
  byId('file').onchange = async ({ target }) => {
    const [file] = target.files;
    await openScript(await file.text(), file.name);
    target.value = '';
  };
  byId('language').onchange = onLanguage;
  byId('filter').oninput = ({ target }) => { view.filter = target.value; render(); };
  byId('slider').oninput = ({ target }) => go(Number(target.value));
  byId('versus').onchange = ({ target }) => compareWith(target.value);
  byId('place').onchange = ({ target }) => { view.place = target.value; render(); };
  byId('speed').onchange = () => view.timer && play(true);
  for (const id of ['detail', 'checks']) byId(id).oninput = ({ target }) => { view.typed[target.name] = target.value; };
  for (const id of PANES) {
    byId(id).addEventListener('focusin', ({ target }) => { stops[id].text = target.dataset.choose ?? stops[id].text; });
  }
  byId('drawing').onpointerdown = onPointerDown;
  listenToBars();
  Object.assign(document, { onclick: onClick, onkeydown: onKey });
  Object.assign(window, { onresize: () => keepFocus(() => renderDrawing(false)), onhashchange: followAddress });
}

// `#NAME` opens the lesson or example of that name. With `embed` there is the drawing alone, with its remark and the steps. `step=12&router=1&prefix=2001:db8::/32` shows that step, and why that
// router's metric is what it is, `packet=` in place of `prefix=` where its packets go; `script=` has a script itself, which is kept as one's own once it is changed.
const addressed = () => new URLSearchParams(location.hash.slice(1));
// A lesson is named with its number or without, so that a link outlives a new order.
function scriptAsked(asked) {
  const [name = ''] = asked.keys();
  return [name, `${name}.lab`].find(one => SCRIPTS.has(one)) ?? [...SCRIPTS.keys()].find(one => one.replace(/^\d+-|^exercise-\d+-/, '') === `${name}.lab`);
}
async function followAddress() {
  const asked = addressed(), script = asked.get('script'), example = scriptAsked(asked), seed = asked.get('seed');
  const router = asked.get('router'), packet = asked.get('packet'), step = asked.get('step') ?? '';
  const text = packet ? `packet ${router} ${packet}` : `route ${router} ${asked.get('prefix')}`;
  try {
    if (script) await openShared(await unpacked(script), asked.get('name') ?? 'shared.lab');
    else if (example && /^\d{1,9}$/.test(seed ?? '')) await openVaried(example, SCRIPTS.get(example).text, Number(seed));
    else if (example && example !== editor.name) await openNamed(example);
  } catch {
    say('The address holds no script.', true);
  }
  if (named(text, view.trace)) view.chosen = text;
  go(/^\d{1,9}$/.test(step) ? Number(step) - 1 : 0);
}

async function openShared(text, name) {
  if (text === editor.text) return;
  await openScript(text, SCRIPTS.get(name)?.text === text ? name : SCRIPTS.has(name) ? `shared-${name}` : name, true);
  if (!view.refused) say('This script came with the link. It is kept as your own once you change it.');
}

// The address follows the script, if it is one of this file, and the step.
function writeAddress() {
  const { kind, router, prefix, target } = named(view.chosen, view.trace) ?? {};
  const route = kind === 'route' ? `&router=${router}&prefix=${prefix}` : kind === 'packet' ? `&router=${router}&packet=${target}` : '';
  const script = SCRIPTS.has(editor.name) ? `${encodeURIComponent(editor.name.replace(/\.lab$/, ''))}&` : '';
  clearTimeout(view.address);
  const here = `#${script}step=${view.step + 1}${route}${speech.code === 'en' ? '' : `&lang=${speech.code}`}`, isEmbedded = document.body.classList.contains('embed');
  byId('whole').href = here;
  const write = () => history.replaceState(null, '', `${here}${isEmbedded ? '&embed' : ''}`);
  if (view.isUp) view.address = setTimeout(write, 300);
}

// First comes what this tab showed before a reload, then the script that the address names, else the latest draft, else
// counting to infinity, with a sentence on what this page is, or the script of a film. What the address names is opened over
// what the tab had, so that it can be gone back to.
async function comeUp() {
  const [[name, { text }]] = SCRIPTS, [draft] = drafts(), tab = keptTab(), first = scriptAsked(addressed());
  const asked = first ? { text: SCRIPTS.get(first).text, name: first } : null;
  const isFilm = byId('own').children.length > 0, start = isFilm ? { text, name } : { text: SCRIPTS.get(COUNTING).text, name: COUNTING };
  const shown = tab ?? asked ?? draft ?? start;
  byId('welcome').hidden = shown !== start || isFilm || addressed().has('script');
  document.body.classList.toggle('embed', addressed().has('embed'));
  document.body.classList.toggle('film', isFilm && shown === start);
  fill('card', html`${cardOf()}`);
  speak(languageAsked());
  listen();
  Object.assign(editor, { past: shown.past ?? [], future: shown.future ?? [], known: new Map(shown.known ?? [[shown.name, shown.text]]) });
  showDraft(shown);
  await runDraft();
  await followAddress();
  if (shown === draft && draft.name === editor.name && !isSaid()) {
    say('Your last script was restored. Others, the lessons and the examples are in the list.');
  }
  view.isUp = true;
  if (isFilm && shown === start && !addressed().has('step') && !isStill()) runFilm();
}

// A film runs by itself, within a minute, until a click or a key.
function runFilm() {
  byId('speed').value = '0';
  play(true);
  const stop = ({ target, key }) => { if (view.timer && key !== ' ' && !target.closest('#run')) play(false); };
  for (const kind of ['pointerdown', 'keydown']) document.addEventListener(kind, stop, { capture: true, once: true });
}

comeUp();
