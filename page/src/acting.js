// What can be done by clicks with what was chosen: a router, a link at one end, a datagram. Each act is lines of the script.
import { hasCome, nameOf, onTheirWay, otherEnds, prefixInView } from './trace.js';
import { decode } from './datagrams.js';
import { LINES, plural, seconds } from './texts.js';
import { titleOf } from './tables.js';
import { questionText } from './marks.js';
import { html } from './markup.js';

// The step behind which new lines go.
export const stepOfNew = ({ place, trace, step }) => trace.steps.at(place === 'end' ? -1 : step);
export const choices = buttons => buttons ? html`<div class="choices">${buttons}</div>` : '';
// A button that puts lines into the script; `{now}` and other names stand for the fields beside it.
const does = (label, lines, key) => html`<button data-lines="${lines}" ${key ? html`data-key="${key}"` : ''}>${label}</button> `;
const removes = (kind, number) =>
  html`<button data-act="remove" data-thing="${kind} ${number}" data-key="Delete">remove the ${kind}</button>`;
const field = ({ typed }, name, label, value, kind) =>
  html`<label>${label} <input name="${name}" value="${typed[name] ?? value}" required ${kind}></label> `;
const count = (state, name, label, value, least, most) =>
  field(state, name, label, value, html`type="number" min="${least}" max="${most}"`);
const PREFIX_FORM = html`pattern="\\s*[0-9a-fA-F:]+/[0-9]+\\s*" title="a prefix of IPv6, like 2001:db8:1::/48" size="20"`;
const prefixField = (state, value) => field(state, 'prefix', 'prefix', value, PREFIX_FORM);
const moment = state => html`${count(state, 'now', 'at', stepOfNew(state).now, 0, 2 ** 53 - 1)} ms `;
const isOut = (state, thing) => stepOfNew(state).out.has(thing);

// Where packets from here go is asked with an address or a prefix.
const TARGET_FORM = html`pattern="\\s*[0-9a-fA-F:]+(/[0-9]+)?\\s*" title="an address or a prefix of IPv6" size="20"`;
export const packetForm = (state, target) => choices(html`${field(state, 'target', 'a packet for', target, TARGET_FORM)}
  <button data-act="packet" data-key="g">where a packet goes</button>`);

// ---- A router ----
function routerDetail(state, { router }) {
  const { timers: { regular, due, hold }, quiet } = state.trace.steps[state.step].routers[router], { now } = state.trace.steps[state.step];
  const isDown = isOut(state, `router ${router}`), waits = hold > now ? `, triggered updates are delayed until ${seconds(hold)}` : '';
  const timers = `Its regular update is due at ${seconds(regular)}${waits}${due ? `, its route to ${due.prefix} ends at ${seconds(due.until)}` : ''}.`;
  return html`<h2>${titleOf(state.trace, router, quiet)}</h2><p>${
    state.trace.steps[state.step].out.has(`router ${router}`) ? 'It is down: its timers do not run, and its routes stay as they were.' : timers}</p>
    ${choices(html`${isDown ? does('bring it up', `speaks ${router}`, 'c') : does('let it fail', `silent ${router}`, 'c')}
      <button data-act="why" data-key="w">why this metric?</button> ${moment(state)}${does('send what is due', `tick ${router} {now} 0`)}
      ${does('restart', `restart ${router} {now}`)} ${state.trace.ends.length > 1 ? removes('router', router) : ''}`)}${packetForm(state, prefixInView(state))}${ownersForm(state, router)}
    ${linkForm(state, router)}${horizonActs(router)}`;
}

// The routers of the classical comparison: a router with another horizon is not RIPng.
const horizonActs = router => html`<details><summary>without poisoned reverse: not RIPng, nothing is promised</summary>
  ${choices(html`${does('no split horizon', `horizon ${router} none`)}${does('split horizon alone', `horizon ${router} split`)}
    ${does('poisoned reverse again', `horizon ${router} poison`)}`)}</details>`;

function ownersForm(state, router) {
  const { prefixes } = stepOfNew(state).routers[router];
  return choices(html`${prefixField(state, `2001:db8:${router.toString(16)}::/48`)}
    ${count(state, 'tag', 'tag', 0, 0, 65535)}${does('originate it', `gain ${router} {now} {prefix} {tag}`)}
    ${prefixes.map(({ prefix }) => does(`withdraw ${prefix}`, `drop ${router} {now} ${prefix}`))}`);
}

function linkForm(state, router) {
  const { routers } = stepOfNew(state), next = routers.length;
  const others = routers.map((_, other) => other).filter(other => other !== router);
  const chosen = Number(state.typed.other ?? next);
  const option = (value, label) => html`<option value="${value}" ${value === chosen ? html`selected` : ''}>${label}</option>`;
  return html`${choices(html`<label>link to <select name="other">${option(next, 'a new router')}
      ${others.map(other => option(other, nameOf(state.trace, other)))}</select></label>
      ${count(state, 'cost', 'cost', 1, 1, 15)}<button data-act="join">link them</button>`)}
    ${choices(html`<label>name <input name="name" size="12" value="${state.typed.name ?? state.trace.names.get(router)}"
      pattern="(?!quiet$)[A-Za-z][A-Za-z0-9_\\-]*" title="a letter, and then letters, digits, - and _"></label>
      <button data-act="name">name it</button>`)}`;
}

// ---- A link, at one end ----
// Whether scripts have a line of that word.
export const hasLine = word => LINES.some(([form]) => form.startsWith(`${word} `));

// Whether the routers of a link have noticed that it is out: then it comes up, and is not mended in silence.
const isDownAt = (state, link) => {
  const line = stepOfNew(state).out.get(`link ${link}`);
  return line !== undefined && state.trace.steps.some(({ record }) => record.line === line && record.event?.kind === 'link_down');
};

// A link is cut and mended silently; or it goes down and comes up, which its routers notice.
function linkActs(link, isCut, isDown) {
  const silent = isDown ? '' : isCut ? does('mend the link', `mend ${link}`, 'c') : does('cut the link', `cut ${link}`, 'c');
  const loud = isDown ? does('bring it up', `up ${link} {now}`, 'c') : isCut ? '' : does('take it down', `down ${link} {now}`);
  const known = loud ? ' Taken down, its routers notice at once.' : '';
  return html`${choices(html`${silent}${loud}${removes('link', link)}`)}
    ${isCut ? '' : html`<p class="faint">A cut is silent: nobody is told, and a route over it is kept until it times out, 180 s
      after it was heard last.${known}</p>`}`;
}

function ifaceDetail(state, { router, iface }) {
  const { trace } = state, { addr, cost, mtu, link } = trace.steps[state.step].routers[router].interfaces[iface];
  const end = trace.ends[router][iface], [other, ...more] = otherEnds(trace, end), isCut = isOut(state, `link ${link}`);
  const both = !other ? '' : hasLine('costs') ? does(`set it at ${more.length === 0 ? 'both' : 'all'} ends`, `costs ${link} {now} {cost}`)
    : more.length === 0 ? does('set it at both ends', `cost ${router} ${iface} {now} {cost}\ncost ${other.router} ${other.iface} +0 {cost}`) : '';
  return html`<h2>Link ${link}${other ? ` to ${otherEnds(trace, end).map(one => nameOf(trace, one.router)).join(', ')}` : ''},
    at ${nameOf(trace, router)}'s interface ${iface}</h2><p>${addr}, cost ${cost}, MTU ${mtu}.</p>
    ${linkActs(link, isCut, isDownAt(state, link))}
    ${choices(html`${moment(state)}${count(state, 'cost', 'cost', cost, 1, 15)}
      ${does('set it', `cost ${router} ${iface} {now} {cost}`)}${both}`)}${forgeries(state, router, iface)}`;
}

// A host that is no router asks, or forges a Response; one from outside the link is seen through, one on the link is not. What is
// sent to the group comes to each router of the link that is up, to this one last; over a cut link to this one alone.
function forgeries(state, router, iface) {
  const { trace } = state, from = `stranger ${router} ${iface} {now} {source} {port} {hop} group`, end = trace.ends[router][iface];
  const others = isOut(state, `link ${end.link}`) ? [] : otherEnds(trace, end).filter(one => !isOut(state, `router ${one.router}`));
  const hearers = [...others, end], toAll = (word, rest) => hearers.map((one, at) => `${word} ${one.router} ${one.iface} ${at > 0 ? '+0' : '{now}'} ${rest}`).join('\n');
  return html`${choices(html`<b>A forged Response</b> ${field(state, 'source', 'from', 'fe80::66', html`size="9"`)}
      ${prefixField(state, '2001:db8::/32')}${count(state, 'metric', 'metric', 1, 1, 16)}
      ${does('forged from outside the link (refused)', toAll('stranger', '{source} 521 254 group {lie}'))}
      ${does('forged on the link (believed)', toAll('liar', '{source} {lie}'))}`)}
    <p class="faint">Both come to ${hearers.map(one => nameOf(trace, one.router)).join(' and ')}.</p>
    <details ${state.typed.port ? html`open` : ''}><summary>other datagrams of a host that is no router</summary>
    ${choices(html`${count(state, 'port', 'port', 521, 0, 65535)}${count(state, 'hop', 'hop limit', 255, 0, 255)}
      ${does('it asks for all routes', `${from} {ask}`)}${does('it sends that Response', `${from} {lie}`)}`)}</details>`;
}

// ---- A datagram ----
function datagramDetail(state, { number }) {
  const { trace, step } = state, datagram = trace.datagrams[number], { end, peer, sentAt, bytes } = datagram, question = questionText(state, datagram);
  const others = otherEnds(trace, end), again = other => hasCome(datagram, other, Infinity) ? 'again ' : '';
  const deliver = other => does(`deliver ${again(other)}to ${nameOf(trace, other.router)}, if ${other.iface}`,
    `deliver ${number} ${other.router} ${other.iface} {now}`);
  const waiting = onTheirWay(end, step).map(({ datagram: other }) =>
    html`<button class="link" data-choose="datagram ${other}">${other}</button> `);
  return html`<h2>Datagram ${number} of ${nameOf(trace, end.router)}, interface ${end.iface}</h2>
    <p>Sent in <button class="link" data-choose="step ${sentAt}">line ${trace.steps[sentAt].record.line}</button> to
      ${peer ? `${peer.addr} port ${peer.port}` : 'the group of all RIPng routers'}. ${fateOf(trace, datagram, step)}</p>
    ${question ? html`<p class="question">It is ${question}.</p>` : ''}
    ${sentAt > step ? '' : choices(html`${loseButtons(datagram)}${moment(state)}${others.map(deliver)}`)}
    <pre id="decoded">${decode(bytes)}</pre>
    <details><summary>its ${plural(bytes.length / 2, 'byte')}</summary><pre>${bytes.match(/.{1,40}/g).join('\n')}</pre></details>
    ${waiting.length > 0 ? html`<p>Under way from here: ${waiting}</p>` : ''}`;
}

const loseButtons = ({ datagram, lostAt, doneAt, arrivals }) => html`${lostAt < Infinity ? ''
  : html`<button data-act="lose" data-number="${datagram}" data-key="l">lose it</button> `}${
  lostAt === Infinity && doneAt === Infinity && arrivals.length === 0
    ? html`${does('lose it, deliver the rest', `lose ${datagram}\nhear`)}${does('deliver all', 'hear', 'd')}` : ''}`;

function fateOf(trace, datagram, step) {
  const { sentAt, lostAt, doneAt, end } = datagram, lineOf = at => trace.steps[at].record.line;
  if (sentAt > step) return 'That is later than this step.';
  const missed = otherEnds(trace, end).filter(other => !hasCome(datagram, other, Infinity)).map(({ router }) => nameOf(trace, router));
  const whom = missed.join(', ') || 'anybody';
  if (lostAt <= step) return `It is lost: it never comes to ${whom}.`;
  if (doneAt <= step) return `It has come, in line ${lineOf(doneAt)}.`;
  return lostAt < Infinity ? `It is under way, and lost in line ${lineOf(lostAt)}.` : 'It is under way.';
}

// What can be done at a step where nothing is chosen: what comes in it can be lost.
export function actsHere({ trace, step }) {
  const { event } = trace.steps[step].record;
  return event?.kind === 'deliver' ? choices(html`<button data-act="lose" data-number="${event.datagram}" data-key="l">lose this
    datagram</button>`) : '';
}

export const ACTIONS = { router: routerDetail, iface: ifaceDetail, datagram: datagramDetail };
