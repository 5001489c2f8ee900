// Stepping, and playing: of steps one after another, and of a span of steps that belong together.
import { nextStop } from './trace.js';

// A step is shown with what has changed since another one: the one before, or the one from which a stop was reached.
function go(step, since = step - 1, flying = step === view.step + 1) {
  endSpan();
  show(Math.max(0, Math.min(view.trace.steps.length - 1, step)), since, since, flying);
}
function show(step, since, flownSince, flying) {
  Object.assign(view, { step, since: Math.max(-1, Math.min(since, step - 1)), flownSince });
  render(flying);
}

function move(direction) {
  if (view.span) return finishSpan();
  const next = stopFrom(view.step, direction);
  if (direction < 0) return go(next, stopFrom(next, -1) < next ? stopFrom(next, -1) : next - 1, false);
  return view.timer ? go(next, view.step, true) : playSpan(view.step, next);
}
const stopFrom = (step, direction) => nextStop(view.trace, view.captions, step, byId('by').value, direction);

// So many steps a second; or all of them in a minute, one after another, or where they are many, at most twenty times a second more at once.
function play(on) {
  const chosen = Number(byId('speed').value), many = chosen ? 1 : Math.ceil(view.trace.steps.length / 1200);
  const isLast = () => view.step >= view.trace.steps.length - 1, next = () => many > 1 ? go(view.step + many, view.step) : move(1);
  clearInterval(view.timer);
  view.timer = null;
  if (on && isLast()) go(0);
  const pause = chosen ? 1000 / chosen : Math.max(50, Math.min(2000, 60_000 / view.trace.steps.length));
  if (on) view.timer = setInterval(() => isLast() ? play(false) : next(), pause);
  byId('run').textContent = on ? 'stop' : 'run';
}

// ---- A span ----
// The milliseconds of a frame, at least and at most, and of a whole span.
const FRAME = { least: 70, most: 420, whole: 4500 };
const isStill = () => matchMedia('(prefers-reduced-motion: reduce)').matches;

// Plays the steps from one to another, such as a round: updates are sent at once, and then come one by one. At the end
// all that has changed since the first is marked.
function playSpan(from, to) {
  endSpan();
  const frames = framesOf(view.trace.steps, from, to);
  if (frames.length < 2 || isStill()) return go(to, from, to > from);
  const pause = Math.max(FRAME.least, Math.min(FRAME.most, FRAME.whole / frames.length));
  byId('network').style.setProperty('--fly', `${Math.round(Math.min(500, 0.95 * pause))}ms`);
  let at = 0, shown = from;
  const next = () => {
    if (at === frames.length) return finishSpan();
    show(frames[at], from, shown, true);
    shown = frames[at++];
  };
  view.span = { from, to, timer: setInterval(next, pause) };
  showBusy();
  return next();
}

// The steps at which a frame ends: the last of ticks that follow each other, and each other step; of many so many.
function framesOf(steps, from, to) {
  const most = FRAME.whole / FRAME.least, isTick = step => steps[step]?.record.event?.kind === 'tick';
  const ends = Array.from({ length: Math.max(0, to - from) }, (_, index) => from + index + 1)
    .filter(step => step === to || !(isTick(step) && isTick(step + 1)));
  const every = Math.ceil(ends.length / most);
  return ends.filter((step, index) => step === to || index % every === every - 1);
}

function endSpan() {
  clearInterval(view.span?.timer);
  view.span = null;
  showBusy();
  byId('network').style.removeProperty('--fly');
}
// Whether a script runs, or a span is played.
function showBusy() {
  byId('drawing').setAttribute('aria-busy', isRunning() || Boolean(view.span));
}
function finishSpan() {
  const { from, to } = view.span;
  go(to, from, false);
}
