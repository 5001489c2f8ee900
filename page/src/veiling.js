// What a reader is to find out: the routes that an open blank asks for, and what follows from them, are taken out of the trace that
// the page shows. The panes get that trace alone, so none of them can tell.
import { entriesOf, prefixKey } from './datagrams.js';

// A route of which nothing is told, one for each prefix: where nothing else changes, nothing is seen to.
const veils = new Map();
function veilOf(prefix) {
  if (!veils.has(prefix)) veils.set(prefix, { route: { prefix, metric: '?', tag: '', until: null, gateway: null, isVeiled: true }, cause: 0 });
  return veils.get(prefix);
}

// Whether nothing is told of a route at a step.
export function isAsked({ trace, step }, router, prefix, at = step) {
  return Boolean(trace.steps[at]?.routers[router]?.table.get(prefix)?.route.isVeiled);
}

// Whether next hops and packets are not told: while blanks are open, and in a quiz.
export const isHushed = ({ isQuiz, checks = [] }) => isQuiz || checks.some(({ isBlank }) => isBlank);

// The trace up to the first step at which blanks are open. Behind the checks before that step their routes are veiled, and so is each
// that was learned of such a route. The datagrams of the trace itself lose what they would tell; the full tables stay in `trace`.
export function veiled(trace, checks) {
  const open = checks.filter(({ isBlank }) => isBlank), end = Math.min(...open.map(({ step }) => step));
  if (open.length === 0) return trace;
  const from = Math.max(-1, ...checks.map(({ step }) => step).filter(step => step < end));
  const asked = new Set(open.filter(({ step }) => step === end).map(({ router, prefix }) => keyOf(router, prefix)));
  const scope = { asked, hidden: new Set(asked), told: new Set(), names: namesAsked(trace, end, asked), tables: new Map() };
  const steps = trace.steps.slice(0, end + 1).map((state, at) => at <= from ? state : veiledStep(scope, state));
  return { ...trace, steps, datagrams: veiledDatagrams(trace, scope, end) };
}

const keyOf = (router, prefix) => `${router} ${prefixKey(prefix.toLowerCase())}`;

// The prefixes that are asked of each router, as the trace writes them; one that it does not have stays as it is.
function namesAsked({ steps }, end, asked) {
  const all = new Set(steps.slice(0, end + 1).flatMap(({ routers }) => routers.flatMap(({ prefixes }) => prefixes.map(({ prefix }) => prefix))));
  const names = new Map();
  for (const [router] of steps[0].routers.entries()) {
    names.set(router, [...all].filter(prefix => asked.has(keyOf(router, prefix))));
  }
  return names;
}

function veiledStep(scope, state) {
  const { record } = state;
  learn(scope, record);
  const routers = state.routers.map((router, number) => veiledRouter(scope, router, number));
  return { ...state, routers, record: veiledRecord(scope, record) };
}

// A route that a veiled datagram changed is hidden from then on; what another brings is not, unless it is asked for. What is sent
// tells of hidden routes.
function learn({ asked, hidden, told }, { router, event, routes = [], sent = [] }) {
  for (const { prefix } of event?.datagram === undefined ? [] : routes) {
    const key = keyOf(router, prefix), isTold = told.has(keyOf(event.datagram, prefix));
    if (isTold) hidden.add(key);
    else if (!asked.has(key)) hidden.delete(key);
  }
  for (const { datagram, router: sender, bytes } of sent) {
    for (const { prefix } of entriesOf(bytes)) if (hidden.has(keyOf(sender, prefix))) told.add(keyOf(datagram, prefix));
  }
}

// A table is the same from step to step while it is and what is hidden of it.
function veiledRouter({ hidden, names, tables }, router, number) {
  const { table, timers } = router, own = [...table.keys()].filter(prefix => hidden.has(keyOf(number, prefix)));
  const prefixes = [...new Set([...own, ...names.get(number)])];
  if (prefixes.length === 0) return router;
  if (!tables.has(table)) tables.set(table, new Map());
  const kept = tables.get(table), key = prefixes.join();
  if (!kept.has(key)) kept.set(key, new Map([...table, ...prefixes.map(prefix => [prefix, veilOf(prefix)])]));
  const due = timers.due && hidden.has(keyOf(number, timers.due.prefix)) ? null : timers.due;
  return { ...router, table: kept.get(key), timers: { ...timers, due } };
}

function veiledRecord({ hidden, told }, record) {
  const { router, event, changes, routes, gone, offers, sent, prints } = record, isOpen = prefix => !hidden.has(keyOf(router, prefix));
  const offer = one => isOpen(one.prefix) && !told.has(keyOf(event.datagram, one.prefix)) ? one : { ...one, metric: '?', why: 'Hidden' };
  return {
    ...record, last: undefined, changes: changes?.filter(({ prefix }) => isOpen(prefix)), routes: routes?.filter(({ prefix }) => isOpen(prefix)),
    gone: gone?.filter(isOpen), offers: offers?.map(offer), sent: sent?.map(one => ({ ...one, bytes: veiledBytes(told, one) })),
    prints: prints?.map(line => veiledPrint(hidden, record.record, line)),
  };
}

// In place of a metric that is not told the digits of an entry are none.
function veiledBytes(told, { datagram, bytes }) {
  return entriesOf(bytes).reduce((text, { prefix }, index) =>
    told.has(keyOf(datagram, prefix)) ? `${text.slice(0, 46 + 40 * index)}??${text.slice(48 + 40 * index)}` : text, bytes);
}

function veiledPrint(hidden, kind, line) {
  const [router, prefix] = line.split(' ');
  if (kind !== 'print') return '?';
  return hidden.has(keyOf(router, prefix)) ? `${router} ${prefix} metric ?` : line;
}

// What comes later than the last step is as if it were not there.
function veiledDatagrams({ datagrams }, { told }, end) {
  const shown = datagrams.filter(({ sentAt }) => sentAt <= end), until = step => step > end ? Infinity : step;
  for (const datagram of shown) {
    const { doneAt, lostAt, arrivals } = datagram;
    if (datagram.came) datagram.came = veiledBytes(told, { ...datagram, bytes: datagram.came });
    Object.assign(datagram, { bytes: veiledBytes(told, datagram), doneAt: until(doneAt), lostAt: until(lostAt),
      arrivals: arrivals.filter(({ step }) => step <= end) });
  }
  return shown;
}

// ---- For a quiz ----
// All that happened, and what a datagram says where it comes; but no result, at any router.
export function quizzed(trace) {
  const tables = new Map();
  const hide = table => {
    if (!tables.has(table)) tables.set(table, new Map([...table.keys()].map(prefix => [prefix, veilOf(prefix)])));
    return tables.get(table);
  };
  const hideRecord = record => ({ ...record, last: undefined, changes: record.changes?.slice(0, 0), routes: record.routes?.slice(0, 0), gone: record.gone?.slice(0, 0),
    offers: record.offers?.map(one => ({ ...one, metric: '?', why: 'Hidden' })), prints: record.prints?.map(() => '?') });
  const hideRouter = router => ({ ...router, table: hide(router.table), timers: { ...router.timers, due: null } });
  // The routers of a step are made once they are looked at: a long run has many steps.
  const steps = trace.steps.map(state => {
    const { record, now, earlier, out, least } = state;
    let made = null;
    return Object.defineProperty({ record: hideRecord(record), now, earlier, out, least }, 'routers',
      { enumerable: true, get: () => (made ??= state.routers.map(hideRouter)) });
  });
  return { ...trace, steps };
}
