// The page in other languages. Its modules write English. Each text that comes into the page is looked up, as a whole or by a pattern with
// gaps, in the words of a language (page/words). Scripts, the prose of lessons, and what the program prints stay as they are.

import { REASONS } from './texts.js';

// ---- Words ----
const literal = text => text.replace(/[.*+?^${}()|[\]\\]/g, '\\$&');
export const GAP = /\{([*=]|\d*)\}/g;
// A pattern: {} is a word, {*} is more, whose parts are looked up in turn, and {=} is more that stays.
function patternOf([english, other]) {
  const kinds = [...english.matchAll(GAP)].map(([, kind]) => kind);
  const form = english.split(/\{[*=]?\}/).map(literal).reduce((text, part, at) => `${text}${kinds[at - 1] ? '(.+)' : '(\\S+)'}${part}`);
  return { form: new RegExp(`^${form}$`), kinds, other, letters: english.replace(GAP, '').length, isLed: !english.startsWith('{') };
}

// A pattern that begins with letters is tried before one that begins with a gap, and of either kind that with the most letters.
const byRank = (a, b) => Number(b.isLed) - Number(a.isLed) || b.letters - a.letters;

export const pairsIn = words => words.split('\n').filter(line => line && !line.startsWith('#')).map(line => line.split(' | '));

// What says a text in another language by its words; null where they have none. What stands in a wide gap and has no words
// stays, and is told to `unsaid`.
export function translatorOf(words, unsaid = () => {}) {
  const pairs = pairsIn(words), whole = new Map(pairs.filter(([english]) => !english.match(GAP))), kept = new Map();
  const patterns = pairs.filter(([english]) => english.match(GAP)).map(patternOf).sort(byRank);
  const find = text => {
    for (const { form, kinds, other } of patterns) {
      const gaps = form.exec(text)?.slice(1).map((gap, at) => kinds[at] === '*' ? within(gap) : gap);
      let next = 0;
      if (gaps) return other.replace(GAP, (_, kind) => gaps[/\d/.test(kind) ? Number(kind) - 1 : next++]);
    }
    return null;
  };
  function within(gap) {
    const said = translate(gap);
    if (said === null) unsaid(gap);
    return said ?? gap;
  }
  function translate(text) {
    if (whole.has(text)) return whole.get(text);
    if (kept.size > 20_000) kept.clear();
    if (!kept.has(text)) kept.set(text, find(text));
    return kept.get(text);
  }
  return translate;
}

// Whether a text has words, beside addresses, numbers, signs and names.
export const hasWords = (text, names = []) => {
  const words = text.replace(/\S*[0-9:/_#"]\S*/g, ' ').match(/\p{Letter}{3,}/gu) ?? [];
  return words.some(word => !names.includes(word));
};

// ---- In the page ----
const LANGUAGE = 'ripngd language';
const AS_IT_IS = '#script, #gutter, #edges, #caption, #answer, #name, #examples option, #language option, pre, code, script, style, #own, #scripts, #module, #worker, .words, [translate=no]';
const SPOKEN = ['title', 'aria-label', 'aria-valuetext', 'placeholder', 'label', 'data-run'];
// What was said is known by its node and by the name of the attribute, since a node can come to the observer twice. What could not
// be said is kept, for tests.
const speech = { code: 'en', translate: null, said: new WeakMap(), missing: new Set(), observer: null };

// Names stay, and so does what the laboratory says of a line that it refuses.
function noteUnsaid(text) {
  const { names } = view.trace, isHint = text === view.refused?.hint?.text;
  if (!isHint && hasWords(text, [...names.values(), ...REASONS.keys()])) speech.missing.add(text);
}
function saidOf(text) {
  const bare = text.trim().replace(/\s+/g, ' '), said = bare && speech.translate(bare);
  if (said === null) noteUnsaid(bare);
  return said ? `${/^\s/.test(text) ? ' ' : ''}${said}${/\s$/.test(text) ? ' ' : ''}` : text;
}

function sayPart(thing, name, text, put) {
  if (!speech.said.has(thing)) speech.said.set(thing, {});
  const kept = speech.said.get(thing);
  if (!text || kept[name] === text) return;
  kept[name] = saidOf(text);
  if (kept[name] !== text) put(kept[name]);
}

function sayText(node) {
  if (!node.parentElement?.closest(AS_IT_IS)) sayPart(node, 'text', node.nodeValue, said => { node.nodeValue = said; });
}

function sayElement(element) {
  if (element.parentElement?.closest(AS_IT_IS) || element.id === 'edges') return;
  if (element.localName === 'option' && !element.hasAttribute('value')) element.value = element.textContent;
  for (const name of SPOKEN) sayPart(element, name, element.getAttribute(name), said => element.setAttribute(name, said));
}

function sayAll(root) {
  if (root.nodeType === Node.TEXT_NODE) return sayText(root);
  if (root.nodeType !== Node.ELEMENT_NODE || root.matches('#scripts, #own, #module, #worker, .words')) return undefined;
  sayElement(root);
  return root.childNodes.forEach(sayAll);
}

// From now on the page speaks a language: what it has, and what comes into it.
function speak(code) {
  const words = document.querySelector(`.words[data-language="${code}"]`);
  byId('language').value = words ? code : 'en';
  if (!words) return;
  Object.assign(speech, { code, translate: translatorOf(words.textContent, noteUnsaid) });
  document.documentElement.lang = code;
  for (const id of ['caption', 'answer']) byId(id).lang = 'en';
  sayAll(document.body);
  speech.observer = new MutationObserver(changes => {
    for (const { type, target, addedNodes, attributeName } of changes) {
      if (type === 'childList') addedNodes.forEach(sayAll);
      else if (type === 'characterData') sayText(target);
      else if (attributeName) sayElement(target);
    }
    speech.observer.takeRecords();
  });
  speech.observer.observe(document.body, { subtree: true, childList: true, characterData: true, attributes: true, attributeFilter: SPOKEN });
}

// For tests: what could not be said.
function unsaid() {
  return [...speech.missing].join('\n');
}

// The language that the address asks for, or that was chosen here.
const languageAsked = () => addressed().get('lang') ?? kept(() => localStorage.getItem(LANGUAGE)) ?? 'en';
function onLanguage({ target }) {
  kept(() => localStorage.setItem(LANGUAGE, target.value));
  clearTimeout(view.address);
  history.replaceState(null, '', location.href.replace(/&lang=\w+/, ''));
  location.reload();
}
