// A network from what other programs write: a list of edges, or GraphML. Names and costs are kept; what is wrong is said with its
// line.
import { networkOf } from './building.js';

// What attribute of an edge is its cost, and what of a node its label: the first that is there.
const COST_NAMES = ['cost', 'metric', 'weight'], LABEL_NAMES = ['label', 'name'], MOST_INTERFACES = 256;

class Fault extends Error {
  constructor(line, why) {
    super(line ? `line ${line}: ${why}` : why);
    this.line = line;
  }
}

// The script of the network of a text; or why there is none, with the line that is wrong.
export function networkFrom(text) {
  try {
    const graph = /^\s*</.test(text) ? graphOfXml(text) : graphOfList(text);
    if (graph.nodes.size === 0) throw new Fault(null, 'there is no router in it');
    return { script: networkOf(checked(graph)) };
  } catch (fault) {
    if (!(fault instanceof Fault)) throw fault;
    return { fault: fault.message, line: fault.line };
  }
}

// ---- A list of edges ----
// Lines `A B` or `A B COST`; between words may stand commas, `--` or `->`. A name is a router when it stands there first.
function graphOfList(text) {
  const nodes = new Map(), edges = [];
  text.split(/\r\n?|\n/).forEach((whole, at) => {
    const words = whole.replace(/(^|\s)#.*/, '').split(/\s*[,;]\s*|\s+(?:--|->)\s+|\s+/).filter(Boolean), line = at + 1;
    if (words.length === 0) return;
    if (words.length !== 2 && words.length !== 3) throw new Fault(line, 'a line is two names, and perhaps a cost');
    for (const key of words.slice(0, 2)) if (!nodes.has(key)) nodes.set(key, { label: key, line });
    edges.push({ ends: words.slice(0, 2), cost: costIn(words[2] ?? '1', line), line });
  });
  return { nodes, edges };
}

function costIn(text, line) {
  if (!/^\d+(\.0+)?$/.test(text.trim())) throw new Fault(line, `the cost ${text} is no whole number`);
  return Number(text);
}

// ---- GraphML ----
function graphOfXml(text) {
  const root = xmlOf(text), keys = new Map(), nodes = new Map(), edges = [];
  if (root.tag !== 'graphml') throw new Fault(root.line, `it has <${root.tag}> and not <graphml>`);
  for (const key of within(root, 'key')) keys.set(key.attributes.get('id'), key.attributes.get('attr.name'));
  const dataOf = element => new Map(element.children.filter(({ tag }) => tag === 'data').map(data => [keys.get(data.attributes.get('key')) ?? data.attributes.get('key'), data]));
  const firstOf = (element, names) => { const data = dataOf(element); return names.map(name => data.get(name)).find(one => one?.text.trim()); };
  const needed = ({ tag, attributes, line }, name) => attributes.get(name) ?? (() => { throw new Fault(line, `<${tag}> has no ${name}`); })();
  for (const node of within(root, 'node')) {
    const key = needed(node, 'id');
    if (nodes.has(key)) throw new Fault(node.line, `a second node ${key}`);
    nodes.set(key, { label: firstOf(node, LABEL_NAMES)?.text.trim() ?? key, line: node.line });
  }
  for (const edge of within(root, 'edge')) {
    const ends = [needed(edge, 'source'), needed(edge, 'target')], told = firstOf(edge, COST_NAMES), lost = ends.find(key => !nodes.has(key));
    if (lost !== undefined) throw new Fault(edge.line, `an edge of ${lost}, and no node ${lost}`);
    edges.push({ ends, cost: told ? costIn(told.text, told.line) : 1, line: edge.line });
  }
  return { nodes, edges };
}
const within = (element, tag) => element.children.flatMap(child => [...child.tag === tag ? [child] : [], ...within(child, tag)]);

// A piece of XML: what is no element; a tag; a text; or a sign that is none of these.
const PIECE = /<!--[^]*?-->|<\?[^]*?\?>|<!(?:[^>[]|\[[^\]]*\])*>|<(\/?)([\w:.-]+)((?:\s+[\w:.-]+\s*=\s*(?:"[^"<]*"|'[^'<]*'))*)\s*(\/?)>|([^<]+)|</g;
const SIGNS = { amp: '&', lt: '<', gt: '>', quot: '"', apos: "'" };
const plainText = text => text.replace(/&(?:#(\d+)|#x([\da-f]+)|(\w+));/gi, (whole, decimal, hex, name) =>
  name ? SIGNS[name] ?? whole : String.fromCodePoint(decimal ? Number(decimal) : parseInt(hex, 16)));

// The outermost element: each has its tag, attributes, line, text and children. Names lose their name space.
function xmlOf(text) {
  const top = { children: [], text: '' }, open = [top];
  let line = 1;
  for (const [piece, closes, name, words, isEmpty, letters] of text.matchAll(PIECE)) {
    const tag = name?.split(':').at(-1), at = open.at(-1);
    if (piece === '<') throw new Fault(line, 'this is no XML');
    if (letters && at !== top) at.text += plainText(letters);
    if (letters?.trim() && at === top) throw new Fault(line, 'this is no XML');
    if (closes && at.tag !== tag) throw new Fault(line, `</${tag}> closes ${at.tag ? `<${at.tag}> of line ${at.line}` : 'nothing'}`);
    if (closes) open.pop();
    if (name && !closes) {
      const attributes = new Map([...words.matchAll(/([\w:.-]+)\s*=\s*(?:"([^"]*)"|'([^']*)')/g)].map(([, key, one, other]) => [key, plainText(one ?? other)]));
      at.children.push({ tag, attributes, line, text: '', children: [] });
      if (!isEmpty) open.push(at.children.at(-1));
    }
    line += piece.split('\n').length - 1;
  }
  if (open.length > 1) throw new Fault(open.at(-1).line, `<${open.at(-1).tag}> is not closed`);
  if (top.children.length !== 1) throw new Fault(1, 'this is no XML');
  return top.children[0];
}

// ---- What a network may be ----
function checked({ nodes, edges }) {
  const keys = [...nodes.keys()], names = namesFor([...nodes.values()].map(({ label }) => label)), count = names.map(() => 0);
  const links = edges.map(({ ends, cost, line }) => {
    const routers = ends.map(key => keys.indexOf(key)), [one, other] = routers.map(router => names[router]);
    if (one === other) throw new Fault(line, `a link joins ${one} with itself`);
    if (cost < 1 || cost > 15) throw new Fault(line, `the cost ${cost} is not 1 to 15`);
    for (const router of routers) if (++count[router] > MOST_INTERFACES) throw new Fault(line, `${names[router]} has more than ${MOST_INTERFACES} links`);
    return { routers, cost };
  });
  return { names, links };
}

// A name of its own for each label, as a script may have it: a letter, and then letters, digits, - and _. A label that is one is kept.
export function namesFor(labels) {
  const own = new Set(labels), taken = new Set();
  return labels.map(label => {
    const letters = label.normalize('NFKD').replace(/[^\x20-\x7e]/g, '').replace(/[^A-Za-z0-9_-]+/g, '-').replace(/^-+|-+$/g, '');
    const base = /^[A-Za-z]/.test(letters) && letters !== 'quiet' ? letters : `R${letters}`;
    const isFree = name => !taken.has(name) && (name === label || !own.has(name));
    let name = base;
    for (let number = 2; !isFree(name); number++) name = `${base}-${number}`;
    taken.add(name);
    return name;
  });
}
