// What is said in words: events, refusals with their reasons, and the lines of a script.

export const seconds = milliseconds => `${(milliseconds / 1000).toFixed(3)} s`;
export const plural = (count, noun) => `${count} ${noun}${count === 1 ? '' : 's'}`;

// What a refusal means, by its name.
export const REASONS = new Map(Object.entries({
  Short: 'it has fewer than 4 bytes', TooLong: 'it has more than 65,524 bytes',
  Ragged: 'it holds no whole number of entries', BadCommand: 'its command is neither 1 nor 2',
  BadVersion: 'its version is not 1', NotZero: 'its third or fourth byte is not 0',
  NotRipngPort: 'a Response has to come from port 521', NotLinkLocal: 'its source is not link-local',
  OwnAddress: "its source is one of this router's addresses",
  HopLimit: 'sent to the group, it has to come with hop limit 255', EmptyRequest: 'a Request has to have an entry',
  BadSource: 'its source address or port cannot be answered', BadLength: 'its prefix length is above 128',
  BadPrefix: 'its prefix is multicast or link-local', BadMetric: 'its metric is not 1 to 16',
  TableFull: 'the table holds as many routes as it may', NoMemory: 'memory was refused',
  OutOfMemory: 'memory was refused', BadLine: 'the line is malformed or out of place',
  TooManyRouters: 'a network has at most 4,096 routers', AddressSharedInNetwork: 'two interfaces have one address',
  NoSuchRouter: 'there is no such router', NoSuchInterface: 'the router has no such interface',
  NoSuchDatagram: 'no such datagram was sent', NoSuchLink: 'there is no such link',
  DatagramLost: 'an earlier line says that it is lost',
  NameTwice: 'two routers have one name', NotAStranger: 'this could only come from a router of the link',
  OtherLink: 'the datagram was sent on another link',
  BadCost: 'a cost is 1 to 15', PrefixNotAllowed: 'the prefix is multicast or link-local',
  AlreadyOwned: 'the router owns it', OwnedFull: 'a router owns at most 1,024 prefixes',
  NotOwned: 'the router does not own it', NoInterface: 'a router has an interface',
  TooManyInterfaces: 'a router has at most 256 interfaces', AddressNotLinkLocal: "an interface's address is link-local",
  AddressTwice: 'two interfaces of the router have one address', BadMtu: 'an MTU is 1,280 to 65,535',
  TooManyPrefixes: 'a router owns at most 1,024 prefixes', PrefixTwice: 'the prefix is owned twice',
  NoRegularUpdate: "the router's regular update is not due",
  NoUpdateInTime: "the router's regular update is not due before the phase is over",
  PastLastMoment: 'the phase would begin past the last moment', Outage: 'a router is silent or a link is cut',
  NotALiar: 'the router sees through it: it is the datagram of any stranger', LiedTo: 'a router was lied to',
}));

// The lines of a script. What stands in brackets may be left out.
export const LINES = [
  ['router [quiet] [NAME]', 'the next router begins; a quiet (passive) one sends no updates'],
  ['iface ADDR COST [MTU] LINK', 'it has an interface (fe80::..), which costs 1 to 15, on the link of that number'],
  ['own PREFIX TAG [times K]', 'it originates a prefix, or K of that length in a row'],
  ['cold NOW', 'all routers start'],
  ['tick R NOW [WORD]', "router R's timer, with a random word or 0: it sends what is due"],
  ['deliver N R I NOW', 'datagram N comes to interface I of router R'],
  ['tell R NOW [WORD] [but K ..]', 'router R sends what is due, and all of it comes, except the datagrams K of it'],
  ['hear [but K ..]', 'all that is under way comes, except the datagrams K of it'],
  ['lose N', 'datagram N is lost: it comes to nobody from now on'],
  ['round NOW', 'every router sends its update, then all that was sent comes'],
  ['rounds K NOW GAP', 'K rounds, at NOW and each GAP later'],
  ['phases K SEED',
    'K minutes, in each of which every regular update comes; the rest is chance. Says which last changed a table'],
  ['run UNTIL [SEED]', 'time passes until then: each timer runs when it is due, and what is sent comes when its link has carried it'],
  ['link LINK DELAY [LOSS]', 'in a run the link takes so many milliseconds, and loses LOSS of a hundred datagrams'],
  ['counts', 'what was sent until now is counted, and when a route changed last'],
  ['cut LINK', 'nothing crosses the link in tell, hear, rounds and runs'],
  ['mend LINK', 'all crosses it again'],
  ['down LINK NOW', 'the link goes down: it is cut, and its routers lose what they learned there'],
  ['up LINK NOW', 'it comes up: it is mended, and its routers ask their neighbors'],
  ['costs LINK NOW COST', 'each interface on the link costs that from now on'],
  ['silent R', 'router R fails: it takes no part in them'],
  ['speaks R', 'it is up again'],
  ['cost R I NOW COST', 'interface I of router R costs that from now on'],
  ['gain R NOW PREFIX TAG', 'router R originates a prefix from now on'],
  ['drop R NOW PREFIX', 'router R withdraws it'],
  ['restart R NOW', 'router R restarts'],
  ['shutdown R NOW', 'router R says good-bye: a last update with metric 16'],
  ['stranger R I NOW SOURCE PORT HOP group HEX', 'a datagram of an outside host comes, to the group or (peer) to R alone'],
  ['ask R I NOW SOURCE PORT PREFIX', 'an outside host asks for that prefix, or for all'],
  ['liar R I NOW SOURCE PREFIX METRIC', 'a forged Response that R takes for one of its link; after it nothing is guaranteed'],
  ['horizon R none', 'router R advertises without poisoned reverse (none), or with split horizon alone (split), until poison: no RIPng'],
  ['asking [off]', 'from now on routers that have lost a route ask their neighbors, or no longer'],
  ['print [R [PREFIX]]', 'routes are printed'],
  ['sent [N]', 'datagrams are printed'],
  ['path R ADDR', 'where packets for ADDR go from router R is printed; expect path R ADDR arrives, or loops or lost, checks it'],
  ['say TEXT', 'the text is printed'],
  ['expect R PREFIX METRIC', 'the script goes on only if router R has that metric, or none. Here ? is a blank to be filled in'],
  ['refused NAME', 'the next line is to be refused so'],
];

// What to do about a line that was refused, as the laboratory says it, and at which line.
export function hintOf({ line, hint }) {
  if (!hint) return '';
  return `; ${hint.line === line ? '' : `line ${hint.line}: `}${hint.text}`;
}

const UPDATES = { regular: 'regular update', triggered: 'triggered update', held: 'a triggered update waits' };
const HAPPENED = {
  deliver: (event, name) => ` receives datagram ${event.datagram} from ${name(event.sender.router)}`,
  stranger: event => ` receives a datagram of an outside host, ${event.source} port ${event.port}`,
  liar: ({ source, sender }, name, { routes, gone }) => `${routes.length + gone.length > 0 ? ' believes' : ' receives'} ${
    sender ? `what ${name(sender.router)} sends, which is not RIPng` : `a forged Response of ${source}`}`,
  tick: (event, name, { update }) => `: ${UPDATES[update] ?? 'its timer, nothing is due'}`,
  restart: () => ' restarts',
  cost: event => ` has cost ${event.cost} at interface ${event.iface}`,
  gain: event => ` originates ${event.prefix} with tag ${event.tag}`,
  drop: event => ` withdraws ${event.prefix}`,
  shutdown: () => ' shuts down',
  link_down: event => `: the link of interface ${event.iface} is down`,
  link_up: (event, name, { asks }) => asks ? ` asks on interface ${event.iface}` : `: the link of interface ${event.iface} is up`,
};
// Why a router asks, as `--explain` says it; which route it is, is left out where a blank asks for it.
export const whyAsks = ({ lost, lost_at }, isOpen = () => false) => `it lost ${isOpen(lost) ? 'a route' : `the route to ${lost}`} at ${seconds(lost_at)}`;
// What it means that a route leaves the forwarding table, by the event.
const LEAVES = { tick: 'times out', deliver: 'is withdrawn by its next hop', drop: 'is no longer originated' };

// What happened at a record, in words; `names` has the names of routers, by their numbers, and `isOpen` says of which prefix
// of its router the metric is not told.
export function describe(record, names = new Map(), isOpen = () => false) {
  const { record: kind, why, routers, router, event, sent, changes, prints, datagram, rounds, phases, last, thing, does } = record;
  const name = number => names.get(number) ?? `R${number}`, asked = () => plural(sent.length, 'Request');
  if (kind === 'start') return `${plural(routers.length, 'router')} start${routers.length === 1 ? 's' : ''}, ${asked()} sent`;
  if (kind === 'refused' && why.startsWith('expected')) return why.replace(/^expected (path )?(\d+)/, (_, path = '', number) => `expected ${path}${name(Number(number))}`);
  if (kind === 'refused') return `refused: ${reasonIn(why)}`;
  if (kind === 'outage') return thing?.startsWith('router ') ? `${name(Number(thing.slice(7)))} ${does}` : `${thing ?? ''} ${does}`.trim();
  if (kind === 'lost') return `datagram ${datagram} is lost`;
  const ended = last === undefined ? '' : last === null ? ', no table changed' : `, the last change in ${kind === 'rounds' ? 'round' : 'phase'} ${last + 1}`;
  if (kind === 'rounds') return `${plural(rounds, 'round')}${ended}`;
  if (kind === 'phases') return `${plural(phases, 'phase')}${ended}`;
  if (kind === 'horizon') return prints[0].replace(/^\d+/, number => `R${number}`);
  if (kind === 'asks') return `${name(router)} asks its neighbors: ${whyAsks(record, isOpen)}`;
  if (kind === 'run') return `a run until ${seconds(record.until)}, made by chance of ${record.seed}`;
  if (kind === 'counts') return `until now ${plural(record.datagrams, 'datagram')}, ${plural(record.bytes, 'byte')}; ${record.last === null ? 'no route changed' : `a route changed last at ${seconds(record.last)}`}`;
  if (kind !== 'event') return `${kind}: ${plural(prints.length, 'line')}`;
  const becomes = ({ change, prefix, metric }) => isOpen(prefix) ? 'changes' : change === 'add' ? `at ${metric}` : LEAVES[event.kind] ?? 'is unreachable';
  const one = changes.filter(({ prefix }) => prefix !== event.prefix).map(change => `, ${change.prefix} ${becomes(change)}`);
  const sends = sent.length > 0 ? `, ${sent.length} sent` : '';
  return `${name(router)}${HAPPENED[event.kind](event, name, record)}${sends}${one.length > 1 ? `, ${one.length} changes` : one}`;
}

// Why a line was refused, in words, with its number and name last.
function reasonIn(why) {
  const found = why.split(' ').findLast(word => REASONS.has(word));
  return found ? `${REASONS.get(found)} (${why})` : why;
}

// Why a datagram, or entries of it, were refused.
export function refusals({ fault, notes }) {
  if (fault) return [`refused: ${reasonIn(`${fault.number} ${fault.name}`)}`];
  return (notes ?? []).map(({ entry, number, name }) => `entry ${entry} refused: ${reasonIn(`${number} ${name}`)}`);
}
