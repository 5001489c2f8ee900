// What the browser keeps: drafts with their states, by name; what each tab shows, with its states; and the address below
// which the page stands on the web. A browser gives all files of a disk one store, so the names of drafts begin with a sum
// of this file: of its sources, and of a script of its own.

const PLACE = 'ripngd address', MOST_DRAFTS = 40, MOST_STATES = 50, MOST_LETTERS = 60_000;
const sumOf = text => [...text].reduce((sum, sign) => Math.imul(sum ^ sign.codePointAt(0), 16777619), 2166136261) >>> 0;
const ofFile = () => `${document.querySelector('meta[name=sources]').content}${byId('own').innerHTML}`;
const FILE_SUM = sumOf(ofFile()).toString(16), KEPT = `ripngd draft ${FILE_SUM} `, TAB = `ripngd tab ${FILE_SUM}`;

// Null where the browser keeps nothing.
function kept(access) {
  try {
    return access() ?? null;
  } catch {
    return null;
  }
}

const draftKeys = () => (kept(() => Object.keys(localStorage)) ?? []).filter(key => key.startsWith(KEPT));
const draftNames = () => draftKeys().map(key => key.slice(KEPT.length)).sort();
const draftNamed = name => kept(() => JSON.parse(localStorage.getItem(KEPT + name)));
// The drafts, the latest first.
const drafts = () => draftNames().map(name => ({ name, ...draftNamed(name) })).sort((a, b) => b.at - a.at);

// The latest states, as many as have room.
function bounded(states) {
  let letters = 0;
  return states.slice(-MOST_STATES).reverse().filter(({ text }) => (letters += text.length) <= MOST_LETTERS).reverse();
}
const withStates = ({ past, future }) => ({ past: bounded(past), future: bounded(future) });

// Where the states have no room the text alone is kept.
function keepDraft({ name, text, past, future }) {
  const store = states => { localStorage.setItem(KEPT + name, JSON.stringify({ text, at: Date.now(), ...states })); return true; };
  if (!kept(() => store(withStates({ past, future })))) kept(() => store({}));
  if (draftNames().length > MOST_DRAFTS) drafts().slice(MOST_DRAFTS).forEach(old => forgetDraft(old.name));
}
function forgetDraft(name) {
  kept(() => localStorage.removeItem(KEPT + name));
}

// What this tab shows, a reload long.
const keptTab = () => kept(() => JSON.parse(sessionStorage.getItem(TAB)));
function keepTab({ name, text, isShared, past, future, known }) {
  const shown = { name, text, isShared, known: [...known], ...withStates({ past, future }) };
  kept(() => sessionStorage.setItem(TAB, JSON.stringify(shown)));
}

// Where the page stands for others: as a teacher set it, else where it stands here.
const placeOfPage = () => kept(() => localStorage.getItem(PLACE)) ?? location.href.replace(/#.*/, '');
const setPlace = place => kept(() => place ? localStorage.setItem(PLACE, place) : localStorage.removeItem(PLACE));
