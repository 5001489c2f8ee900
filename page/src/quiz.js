// A quiz: metrics are hidden, a reader guesses them, and the page marks each guess.
import { nameOf, prefixInView } from './trace.js';
import { foundAt, metricIn } from './lessons.js';
import { html } from './markup.js';

// Guesses are kept by the step, the router and the prefix: what was guessed, how often, and whether it is right or shown.
const guessKey = (view, router) => `${view.step} ${router} ${prefixInView(view)}`;
const guessOf = (view, router) => view.guesses.get(guessKey(view, router));

// The result, which the trace that is shown does not have.
const resultAt = (view, router) => foundAt((view.whole ?? view.trace).steps[view.step], router, prefixInView(view));

// The metric of a router that was guessed or shown, as the drawing has it; null while it is not.
export function guessed(view, router) {
  const guess = guessOf(view, router);
  if (!guess?.isRight && !guess?.isShown) return null;
  const found = resultAt(view, router);
  return found === 'none' ? '–' : Number(found);
}

// Marks what was guessed of a router. What is no metric is no guess.
export function markGuess(view, router, text) {
  const metric = metricIn(text), had = guessOf(view, router);
  if (metric === null || had?.isRight || had?.isShown) return;
  const isRight = metric === resultAt(view, router);
  view.guesses.set(guessKey(view, router), { text: metric, tries: (had?.tries ?? 0) + 1, isRight, isShown: false });
}

export function reveal(view, router) {
  const had = guessOf(view, router);
  if (!had?.isRight) view.guesses.set(guessKey(view, router), { text: '', tries: 0, ...had, isRight: false, isShown: true });
}

// How many guesses of all steps were right, and how many of them at once.
export function scoreOf({ guesses }) {
  const all = [...guesses.values()], right = all.filter(({ isRight }) => isRight);
  return { marked: all.length, right: right.length, atOnce: right.filter(({ tries }) => tries === 1).length };
}

export function quizOf(view) {
  const { trace, step } = view, prefix = prefixInView(view), { marked, right, atOnce } = scoreOf(view);
  const score = marked === 0 ? '' : html`<p id="score"><b>${right} of ${marked} right</b>, ${atOnce} at the first guess.</p>`;
  return html`<h2>Which metric has each router for ${prefix}?</h2>
    <p class="faint">1 to 16, or none. Enter marks a guess.</p>${score}
    ${trace.steps[step].routers.map((_, router) => guessRow(view, router))}
    <p><button data-act="markAll">mark all</button> <button data-act="revealAll">show all</button></p>`;
}

function guessRow(view, router) {
  const guess = guessOf(view, router), name = nameOf(view.trace, router), shown = guessed(view, router);
  const says = !guess ? '' : guess.isRight ? '✓' : guess.isShown ? 'shown' : `✗ ${guess.text} is wrong`;
  return html`<div class="choices guess"><label>${name} <input name="guess-${router}" data-guess="${router}" size="5" autocomplete="off"
    value="${shown ?? ''}" ${shown === null ? '' : html`readonly`}></label>
    ${shown === null ? html`<button data-act="reveal" data-router="${router}" aria-label="show the metric of ${name}">show</button>` : ''}
    <span class="${guess?.isRight ? 'good' : 'bad'}">${says}</span></div>`;
}
