// Links and routers that are removed from scripts, for tests/page/page.mjs.
import { readFileSync, readdirSync } from 'node:fs';
import { fileURLToPath } from 'node:url';
import { keysOf } from '../../page/src/numbering.js';
import { NAMES_AT, settling, without } from '../../page/src/removing.js';
import { LINES } from '../../page/src/texts.js';
import { captionsOf } from '../../page/src/lessons.js';
import { linkIn, networkScript, placesOf, withLink } from '../../page/src/building.js';

export function removalCases({ same, traceOf, three }) {
  const metricsOf = trace => trace.steps.at(-1).routers.map(({ table }) => table.get('2001:db8::/32')?.route.metric ?? null);
  // The script without a thing, as the page comes to it; and how many lines went, and were set aside.
  function removed(script, thing) {
    const was = traceOf(script), edit = without(was, script, thing), before = { was, old: script, had: keysOf(was, line => line, edit.renamed) };
    for (let text = edit.script, off = 0; ; off += settling.off ?? 0) {
      const trace = traceOf(text), next = settling(before, { ...edit, script: text }, trace);
      if (!next) return { text, trace, lost: edit.lost, off };
      text = next.script;
      off += next.off;
    }
  }
  const linesBehind = (text, start) => text.slice(text.indexOf(start)).split('\n').filter(Boolean);
  return {
    // A ring of three without the link of R1 and R2 is a line: R1 - R0 - R2. Interfaces of R2 are numbered anew.
    'a link less': () => {
      const script = `${networkScript('ring', 3)}rounds 3 0 15000\ncut 1\ncost 2 1 40000 4\nmend 1\nround 60000\n`, { text, trace, lost, off } = removed(script, 'link 1');
      same('the links', trace.ends.map(ends => ends.map(({ link }) => link)), [[0, 2], [0], [2]]);
      same('what follows', linesBehind(text, 'cold'), ['cold 0', 'rounds 3 0 15000', 'cost 2 0 40000 4', 'round 60000']);
      same('the metrics, and lines', [metricsOf(trace), lost, off], [[1, 2, 5], 4, 0]);
    },
    // A line of three without its middle: each other router keeps an interface, on a link of its own.
    'a router less': () => {
      const named = three.replace('router', 'router Bonn').replace('cold', '#places 1 0.50 0.50, 2 1.00 -1.00\ncold');
      const script = `${named}rounds 2 0 15000\ntick 1 40000 0\nsilent 2\nspeaks 2\nexpect 2 2001:db8::/32 3\nexpect Bonn 2001:db8::/32 1\nprint 1\nprint\n`;
      const { text, trace, off } = removed(script, 'router 1');
      same('the links', trace.ends.map(ends => ends.map(({ link }) => link)), [[2], [4]]);
      same('what follows', linesBehind(text, 'cold'), ['cold 0', 'rounds 2 0 15000', 'silent 1', 'speaks 1', '#off expect 1 2001:db8::/32 3', 'expect Bonn 2001:db8::/32 1', 'print']);
      same('places', [placesOf(text)[1], placesOf(text)[2]], [{ x: 1, y: -1 }, undefined]);
      same('lines, and no caption', [off, captionsOf(text).at(-1)], [1, '']);
      same('the names', [...trace.names], [[0, 'Bonn']]);
    },
    // Without R0 and its link there are two Requests, 0 and 1, and R2 is R1 and sends 2. What names R0, or what it sent, goes.
    'datagrams keep their meaning': () => {
      const script = `${three.replace('cold', 'own 2001:db8:2::/48 0\ncold')}tick 0 0 0\ntick 2 0 0\ndeliver 4 1 0 0\ndeliver 5 1 1 0\nlose 4\nsent 5\n`, trace = traceOf(script);
      same('before', trace.datagrams.slice(4).map(({ router }) => router), [0, 2]);
      const { text } = removed(script, 'router 0');
      same('what follows', linesBehind(text, 'cold'), ['cold 0', 'tick 1 0 0', 'deliver 2 0 0 0', 'sent 2']);
    },
    'what is left out keeps its meaning': () => {
      // A star of R0 and three others: its Requests are 0 to 2, theirs 3 to 5; without link 0, 0 and 1, and 2 to 4, of R1 alone on a link.
      const script = `${networkScript('star', 4)}hear but 1 4\nround 0\ntell 0 15000 0 but 1   # so\n`, behind = link => linesBehind(removed(script, `link ${link}`).text, 'cold');
      same('without link 0', behind(0), ['cold 0', 'hear but 0 3', 'round 0', 'tell 0 15000 0 but 0   # so']);
      same('without link 1', behind(1), ['cold 0', 'hear but 3', 'round 0', 'tell 0 15000 0   # so']);
    },
    'the link of an interface is its last word': () => {
      const lines = ['iface fe80::1 1 1280 12', 'iface fe80::1 1 12', 'iface fe80::1 1 1280 12   # link 3', 'iface fe80::1 1 1280 x'];
      same('it', lines.map(linkIn), [12, 12, 12, null].map(link => link ?? NaN));
      same('another', lines.slice(0, 3).map(line => withLink(line, 7)), ['iface fe80::1 1 1280 7', 'iface fe80::1 1 7', 'iface fe80::1 1 1280 7   # link 3']);
    },
    // The card of lines has R for a router, and I for an interface of it.
    'lines that name a router': () => {
      for (const [form] of LINES) {
        const words = form.replace(/[[\]]/g, '').split(' '), at = ['R', 'I'].map(name => words.indexOf(name)).filter(index => index > 0);
        same(form, NAMES_AT[words[0]] ?? [], at);
      }
    },
    // What must be refused goes with the line that announces it; what is refused only now is set aside.
    'refusals': () => {
      const script = `${three}refused 31 BadCost\ncost 1 0 0 16\nrefused BadCost\ncost 2 0 0 16\nround 0\n`.replace('refused 31 BadCost', 'refused BadCost');
      same('what follows', linesBehind(removed(script, 'router 1').text, 'cold'), ['cold 0', 'refused BadCost', 'cost 1 0 0 16', 'round 0']);
    },
    // Whatever is removed from an example or a lesson, what is left runs to its end, but for a line that it refuses itself.
    'examples and lessons with something less': () => {
      let count = 0;
      for (const folder of ['../../examples/', '../../examples/lessons/'].map(path => fileURLToPath(new URL(path, import.meta.url)))) {
        for (const file of readdirSync(folder).filter(name => name.endsWith('.lab'))) {
          const script = readFileSync(folder + file, 'utf8'), trace = traceOf(script);
          if (trace.steps.length > 400) continue;
          for (const thing of [`link ${[...trace.links.keys()].at(-1)}`, `router ${trace.ends.length - 1}`]) {
            const { trace: after } = removed(script, thing), last = after.steps.at(-1)?.record;
            same(`${file} without ${thing}`, [after.ends.length, last?.record === 'refused'], [trace.ends.length - (thing.startsWith('router') ? 1 : 0), false]);
            count++;
          }
        }
      }
      return `: ${count} of them`;
    },
  };
}
