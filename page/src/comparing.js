// What stands beside the network under the same slider: other versions of it, and the time diagram; and packets that run.
import { readTrace } from './trace.js';
import { wiringOf } from './layout.js';
import { stepBeside } from './asking.js';
import { isHushed } from './veiling.js';
import { horizonsOf, triggeredLines, versionsText, withLinesOf, withTriggered, withoutTriggered } from './versions.js';
import { timelineOf } from './timeline.js';
import { hasLine } from './acting.js';
import { html } from './markup.js';

// ---- Versions ----
// What a kind of versions is made of, and the name of the script among them.
const VERSIONS = {
  horizons: (script, trace) => horizonsOf(script, trace),
  async triggered(script, trace) {
    if (triggeredLines(script, trace).length > 0) return { name: 'with triggered updates', versions: [withoutTriggered(script, trace)] };
    const maker = withTriggered(script, trace);
    let next = maker.next();
    while (!next.done) next = maker.next(readTrace(await traced(next.value), next.value));
    return { name: 'without triggered updates', versions: [next.value] };
  },
};

// Lines that a version refuses are left out of it.
async function runOfVersion({ name, script, origins }) {
  const ran = await settledRun({ script, origins, renamed: (router, iface) => ({ router, iface }) });
  const trace = withLinesOf(readTrace(ran.answer, ran.script), origins);
  return { name, trace, wiring: wiringOf(trace), off: ran.off };
}

async function runVersions(kind, { script, trace }) {
  const { name, versions } = await VERSIONS[kind](script, trace), runs = [];
  for (const one of versions) runs.push(await runOfVersion(one));
  return { kind, name, trace, runs };
}

// The versions of a kind stand beside the script from now on, also after it is changed; of none nothing does.
async function compareWith(kind) {
  const { trace } = view;
  view.versus = kind ? { kind, trace: null, runs: [] } : null;
  if (kind && view.wiring && !isHushed(view)) await runScript(() => runVersions(kind, view), versus => {
    if (view.trace === trace && view.versus?.kind === kind) view.versus = versus;
  });
  if (!view.span) render();
}

// Whether versions of what is shown are there; while metrics are asked for they are not.
const isCompared = () => view.versus?.trace === view.trace && !isHushed(view);

function renderVersions() {
  const runs = isCompared() ? view.versus.runs : [], place = byId('networks');
  const panes = () => [...place.querySelectorAll('.version')];
  for (const pane of panes().slice(runs.length)) pane.remove();
  while (panes().length < runs.length) place.insertAdjacentHTML('beforeend', '<div class="version" inert><svg><g></g></svg></div>');
  panes().forEach((pane, at) => { pane.dataset.run = runs[at].name; });
  if (runs.length > 0) byId('drawing').dataset.run = view.versus.name;
  byId('versus').value = view.versus?.kind ?? '';
  fill('versions', runs.length > 0 ? versionsText(view) : html``);
}

// The same moment of another run.
function viewBeside(view, from, { trace, wiring }) {
  const [at, since] = [view.step, view.since].map(one => stepBeside(from, trace, one)), isOfStep = /^(datagram|step)/.test(view.chosen);
  return { ...view, trace, wiring, step: at, since: Math.min(since, at - 1), checks: [], isSending: false, chosen: isOfStep ? null : view.chosen };
}
function drawVersions() {
  if (isCompared()) [...document.querySelectorAll('.version')].forEach((pane, at) => drawIn(pane, viewBeside(view, view.trace, view.versus.runs[at]), false));
}

// ---- The time diagram ----
function renderTimeline() {
  const pane = byId('timeline'), isThere = view.hasTimes && view.wiring !== null && !view.stale && !view.isQuiz;
  pane.hidden = !isThere;
  if (isThere) refill('timeline', timelineOf(view, { width: pane.clientWidth, height: pane.clientHeight - 2 }));
}

// ---- Packets that run ----
// They start anew at each step that is shown. While a span is played, and for who wants less motion, they stand at their ends.
function sendPackets() {
  for (const way of byId('network').querySelectorAll('.run')) {
    const again = way.cloneNode(true), isMoving = !view.span && !isStill();
    way.replaceWith(again);
    again.classList.toggle('still', !isMoving);
    if (isMoving) startPacket(again);
  }
}
function startPacket(way) {
  const cross = way.querySelector('.cross');
  if (cross) cross.style.animationDelay = `${cross.dataset.after}s`;
  way.querySelector('animateMotion')?.beginElement();
}

// ---- What buttons do ----
function toggleView(name) {
  view[name] = !view[name];
  render();
}
const VIEWS = { times: 'hasTimes', hops: 'hasHops', send: 'isSending' };
function renderViews() {
  for (const [act, name] of Object.entries(VIEWS)) buttonOf(act).setAttribute('aria-pressed', Boolean(view[name]));
  buttonOf('runMinute').hidden = !hasLine('run');
}
