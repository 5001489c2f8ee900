// The bars between panes: dragged, or moved by keys, they give a pane more room. What each has is kept by the browser.

// Of each bar the pane that it is of, and whether that lies before it (1) or behind it (-1), along its axis; and how what it takes
// stands in the style, whose variables have the names of bars.
const pixelsOf = pixels => `${pixels}px`;
const BARS = {
  left: { pane: 'left', axis: 'width', way: 1, form: pixelsOf },
  right: { pane: 'right', axis: 'width', way: -1, form: pixelsOf },
  foot: { pane: 'left', axis: 'height', way: -1, form: pixelsOf },
  stage: { pane: 'stage', axis: 'height', way: 1, form: pixelsOf },
  editor: { pane: 'editor', axis: 'height', way: 1, form: pixels => `0 1 ${pixels}px` },
};
const BAR_STRIDE = 24, ROOMS = 'ripngd rooms';
const rooms = kept(() => JSON.parse(localStorage.getItem(ROOMS))) ?? {};

// The pane of a bar has so many pixels, or what it had at first; the style bounds them.
function giveRoom(name, pixels) {
  if (pixels === null) delete rooms[name];
  else rooms[name] = Math.max(0, Math.round(pixels));
  kept(() => localStorage.setItem(ROOMS, JSON.stringify(rooms)));
  showRooms();
  window.onresize?.();
}

function showRooms() {
  for (const [name, { form }] of Object.entries(BARS)) {
    if (rooms[name] > 0) document.body.style.setProperty(`--${name}`, form(rooms[name]));
    else document.body.style.removeProperty(`--${name}`);
  }
  for (const bar of barsThere()) bar.setAttribute('aria-valuenow', Math.round(roomOf(bar.dataset.bar)));
}
const barsThere = () => document.querySelectorAll('[data-bar]');
const roomOf = name => byId(BARS[name].pane).getBoundingClientRect()[BARS[name].axis];

// While the pointer is down `move` is told how far it went; at last `drop`.
function followPointer({ clientX, clientY }, move, drop = () => {}) {
  const drag = new AbortController(), end = () => { drag.abort(); drop(); };
  window.addEventListener('pointermove', event => move(event.clientX - clientX, event.clientY - clientY), drag);
  for (const ends of ['pointerup', 'pointercancel']) window.addEventListener(ends, end, drag);
}

function dragBar(event) {
  const name = event.target.dataset.bar, { axis, way } = BARS[name], had = roomOf(name);
  event.preventDefault();
  event.target.focus();
  followPointer(event, (across, down) => giveRoom(name, had + way * (axis === 'width' ? across : down)));
}

// The arrows along its axis move a bar, and Enter puts it back; whether a key does.
const BAR_KEYS = { width: { ArrowLeft: -1, ArrowRight: 1 }, height: { ArrowUp: -1, ArrowDown: 1 } };
function movesBar({ dataset: { bar: name } }, key) {
  const { axis, way } = BARS[name] ?? {}, direction = BAR_KEYS[axis]?.[key];
  if (direction) giveRoom(name, roomOf(name) + way * direction * BAR_STRIDE);
  else if (name && key === 'Enter') giveRoom(name, null);
  else return false;
  return true;
}

function listenToBars() {
  for (const bar of barsThere()) Object.assign(bar, { onpointerdown: dragBar, ondblclick: () => giveRoom(bar.dataset.bar, null) });
  showRooms();
}
