// What a click, a key and a drag do.
import { named, prefixInView } from './trace.js';
import { markGuess } from './quiz.js';

function choose(text) {
  const isNew = text !== view.chosen && named(text, view.trace);
  Object.assign(view, { chosen: isNew ? text : null, typed: {} });
  endSpan();
  renderChosen();
}

// On a narrow window what is told of a router covers the foot of the window: the router is scrolled above it.
function renderChosen() {
  render();
  const { router } = named(view.chosen, view.trace) ?? {}, circle = byId('drawing').querySelector(`.router[data-router="${router}"] circle`);
  if (!circle || matchMedia(SIDE_BY_SIDE).matches || document.body.classList.contains('large')) return;
  const below = circle.getBoundingClientRect().bottom + 12 - byId('detail').getBoundingClientRect().top;
  if (below > 0) window.scrollBy(0, below);
}

// ---- Clicks ----
function onClick({ target }) {
  const clicked = target.closest('[data-choose], [data-lines], [data-act]');
  const { choose: text = '', lines, act } = clicked?.dataset ?? {}, [kind, number] = text.split(' ');
  const values = lines || MAKES[act] ? fields(clicked) : {};
  if (view.dragged || !values) return;
  if (clicked || !target.closest('#acts details')) document.querySelector('#acts details[open]')?.removeAttribute('open');
  if (!target.closest('#editing')) hushToast();
  if (act) (MAKES[act] ?? ACTS[act])(MAKES[act] ? values : clicked);
  else if (lines) putIn(lines, values);
  else if (kind === 'step') go(Number(number));
  else if (kind === 'line') go(view.trace.steps.findIndex(({ record }) => record.line >= Number(number)));
  else if (view.isQuiz && /^(route|router)$/.test(kind)) byId('quiz').querySelector(`[data-guess="${number}"]`)?.focus();
  else if (text || target.closest('#drawing')) choose(text);
}

// ---- Keys ----
// The buttons by their ids, each with its key.
const MOVES = {
  first: ['Home', () => go(0)], back: ['ArrowLeft', () => move(-1)], step: ['ArrowRight', () => move(1)],
  last: ['End', () => go(Infinity)], run: [' ', () => play(!view.timer)],
};
const buttonOf = act => document.querySelector(`[data-act=${act}]`);
const press = act => () => buttonOf(act).click();
// Single letters. c, l, d, w and g are of what is chosen, or has the focus in the drawing.
const LETTERS = {
  r: press('round'), f: press('rounds'), u: press('untilChange'), p: press('present'), q: press('quiz'), m: press('matrix'),
  '+': press('zoomIn'), '-': press('zoomOut'), 0: press('zoomWhole'), '/': () => byId('filter').focus(),
  t: press('times'), h: press('hops'), x: press('send'), e: () => byId('pasting').showModal(), i: press('runMinute'),
  k: () => toBranch({ dataset: {} }), j: () => compareBranch({ dataset: {} }),
  a: () => showAsking(ASKING_WAYS[(ASKING_WAYS.indexOf(view.way) + 1) % ASKING_WAYS.length]), n: press('lessonAfter'), b: press('lessonBefore'), '?': press('help'),
  c: target => ofChosen('c', target), l: target => ofChosen('l', target), w: target => ofChosen('w', target),
  g: target => ofChosen('g', target), Delete: target => ofChosen('Delete', target),
  d: target => ofChosen('d', target, press('hear')),
};

// The button of the detail that has a letter, of what has the focus where that is another thing than the chosen one.
const WANTED = { c: 'Choose a link or a router first.', l: 'Choose a datagram first, or a step at which one comes.',
  w: 'Choose a router or a route first.', g: 'Choose a router or a route first.',
  Delete: 'Choose a link or a router first.' };
function ofChosen(letter, target, otherwise = () => say(WANTED[letter], true)) {
  const text = target.closest('#drawing [data-choose]')?.dataset.choose, [kind, number] = (text ?? view.chosen ?? '').split(' ');
  if (view.isQuiz && /[gw]/.test(letter)) return undefined;
  if (/[gw]/.test(letter) && kind === 'router') {
    view.chosen = `${letter === 'w' ? 'route' : 'packet'} ${number} ${prefixInView(view)}`;
    return renderChosen();
  }
  if (text && text !== view.chosen) choose(text);
  if (letter === 'w' && kind === 'route') return undefined;
  const { event } = current()?.record ?? {};
  if (letter === 'l' && kind !== 'datagram' && event?.kind === 'deliver') return lose({ dataset: { number: event.datagram } });
  const button = byId('detail').querySelector(`[data-key=${letter}]`);
  return button ? button.click() : otherwise();
}

const isField = target => target.matches('input:not([type=range]), textarea:not([readonly]), select');
function onKey(event) {
  const { key, target } = event, [, act] = Object.values(MOVES).find(([moves]) => moves === key) ?? [];
  const isCommand = event.ctrlKey || event.metaKey, isOther = target.matches('input:not([type=range])');
  if (isCommand && /^[zy]$/i.test(key) && !isOther) {
    event.preventDefault();
    return key.toLowerCase() === 'y' || event.shiftKey ? redo() : undo();
  }
  if (event.altKey || isCommand || document.querySelector('dialog[open]')) return;
  const more = document.querySelector('#acts details[open]');
  if (key === 'Escape' && more) return more.removeAttribute('open');
  if (key === 'Escape') return isRunning() ? stopRun() : view.span ? finishSpan() : choose(null);
  if (key === 'Enter' && isAnswered(target) || movesBar(target, key)) return event.preventDefault();
  const presses = ['Enter', ' '].includes(key), thing = target.closest('g[data-choose]');
  if (isField(target) && (target.tagName !== 'SELECT' || !act) || presses && target.matches('button, select, summary, a')) return;
  const does = stepWithin(target, key) ?? (thing && presses ? () => choose(thing.dataset.choose) : act)
    ?? (LETTERS[key] && (() => LETTERS[key](target)));
  if (!does) return;
  event.preventDefault();
  hushToast();
  does();
}

// What was said of the act before goes.
function hushToast() {
  if (byId('editing').classList.contains('toast') && !isRunning()) hush();
}

// The arrows up and down go through the things of a pane.
function stepWithin(target, key) {
  const pane = target.closest('#drawing, #timeline, #tables, #events'), items = pane ? itemsOf(pane) : [];
  const way = { ArrowDown: 1, ArrowUp: -1 }[key], next = way && items[items.indexOf(target) + way];
  return next ? () => next.focus() : null;
}

// Enter marks a guess, and goes to the next; or checks a blank; or asks where a packet goes.
function isAnswered(target) {
  const { guess, blank } = target.dataset, isTarget = target.name === 'target';
  if (isTarget) target.closest('.choices').querySelector('button').click();
  if (blank) answerBlank(Number(blank));
  if (!guess) return isTarget || Boolean(blank);
  markGuess(view, Number(guess), target.value);
  render();
  byId('quiz').querySelector(`[data-guess="${Number(guess) + 1}"]`)?.focus();
  return true;
}

// ---- Dragging ----
// Moves a router of the drawing while the pointer is down.
function onPointerDown(event) {
  const router = event.target.closest('.router')?.dataset.router;
  if (router === undefined) return;
  const { x, y } = view.shifts[router] ?? { x: 0, y: 0 };
  const shift = (across, down) => {
    if (!view.dragged && Math.hypot(across, down) < 4) return;
    view.dragged = true;
    view.shifts = [...view.shifts];
    view.shifts[router] = { x: x + across / view.pixels, y: y + down / view.pixels };
    keepFocus(() => renderDrawing(false));
  };
  const drop = () => {
    if (view.dragged) keepPlaces();
    setTimeout(() => { view.dragged = false; });
  };
  followPointer(event, shift, drop);
}
