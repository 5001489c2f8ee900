// What stands beside the network, for tests/page/page.mjs: the time diagram, other versions of the network, hosts that are no routers,
// next hops and packets that run. What is expected is worked out by hand.
import { layOut, wiringOf } from '../../page/src/layout.js';
import { drawingOf } from '../../page/src/drawing.js';
import { timelineOf, windowOf } from '../../page/src/timeline.js';
import { outsidersIn } from '../../page/src/outsiders.js';
import { runOf, runnersOf } from '../../page/src/running.js';
import { horizonsOf, triggeredLines, versionsText, withLinesOf, withTriggered, withoutTriggered } from '../../page/src/versions.js';
import { ACTIONS } from '../../page/src/acting.js';
import { networkScript } from '../../page/src/building.js';

const PREFIX = '2001:db8::/32';

export function besideCases({ same, traceOf, three }) {
  const viewOf = (trace, step, more = {}) => ({ trace, step, since: step - 1, wiring: wiringOf(trace), spots: layOut(wiringOf(trace)), shifts: [], typed: {}, place: 'end', chosen: null, checks: [], pane: { width: 500, height: 400 }, ...more });
  const atEnd = (trace, more) => viewOf(trace, trace.steps.length - 1, more), drawn = view => drawingOf(view).parts.map(({ text }) => text).join('');
  const timed = (view, size = { width: 500, height: 900 }) => timelineOf(view, size).text;
  const arrows = text => [...text.matchAll(/<g class="message ?([^"]*)" data-choose="step (\d+)"[^>]*aria-label="([^"]*)"/g)].map(([, is, step, label]) => ({ is, step: Number(step), label }));
  const metricsOf = (trace, step = trace.steps.length - 1) => trace.steps[step].routers.map(({ table }) => table.get(PREFIX)?.route.metric ?? '-').join(' ');
  const plain = ({ text }) => text.replace(/<[^>]*>/g, '').replace(/\s+/g, ' ').trim();
  const heldOf = run => [...run.trace.steps.at(-1).routers].map(({ table }) => table.get(PREFIX)?.route.metric ?? '-').join(' ');
  const ranAs = ({ name, script, origins }) => ({ name, trace: withLinesOf(traceOf(script), origins), script });
  return {
    // Each datagram that comes is one arrow, from the row of its sending to that of its coming, where a click leads.
    'the time diagram': () => {
      const trace = traceOf(`${three}rounds 2 0 15000\n`), step = trace.steps.findIndex(({ record }) => record.event?.kind === 'deliver'), found = arrows(timed(viewOf(trace, step)));
      const coming = trace.steps.flatMap(({ record }, at) => record.event?.kind === 'deliver' ? [at] : []);
      same('the arrows', found.map(({ step: at }) => at).sort((a, b) => a - b), coming);
      same('those of later steps', found.filter(({ is }) => is.includes('later')).length, coming.length - 1);
      same('that of this step', found.filter(({ is }) => is.includes('now')).map(({ label }) => label), ['datagram 4 of R0 comes to R1, line 10, metric 1']);
      same('metrics of later steps', [...timed(viewOf(trace, step)).matchAll(/class="held later"[^>]*>(\d+)</g)].map(([, metric]) => metric), ['3']);
      same('poisoned ones', found.filter(({ is }) => is.includes('unreachable')).length > 0, true);
      const lines = [...timed(viewOf(trace, step)).matchAll(/<path class="life" d="M(\d+) (\d+)V/g)].map(([, x]) => Number(x));
      same('lines, as far apart', [lines.length, lines[1] - lines[0]], [3, lines[2] - lines[1]]);
      same('times', [...timed(viewOf(trace, step)).matchAll(/class="time"[^>]*>(.*?)</g)].map(([, text]) => text), ['0 s', '15 s']);
    },
    // Of a cut link nothing comes, and its arrows end before; a router that is down has a broken line; blanks are not answered.
    'what does not come, in the time diagram': () => {
      const trace = traceOf(`${three}round 0\ncut 1\nsilent 0\nround 15000\n`), found = arrows(timed(atEnd(trace)));
      same('lost', found.filter(({ is }) => is.startsWith('lost')).map(({ label }) => label), ['datagram 5 of R1 to R0 is lost', 'datagram 6 of R1 to R2 is lost']);
      same('a broken line', /class="life down"/.test(timed(atEnd(trace))), true);
      const checks = [{ line: 99, router: 2, prefix: PREFIX, wanted: '?', step: 99, isBlank: true }], hidden = timed(atEnd(trace, { checks }));
      same('metrics while a blank is open', [/, metric \d/.test(hidden), /class="held/.test(hidden), /class="held/.test(timed(atEnd(trace)))], [false, false, true]);
    },
    // The rows stay while one steps within a page, and the step is among them.
    'the rows in sight': () => {
      for (let step = 0; step < 300; step++) {
        const { from, rows } = windowOf(300, step, 24);
        same(`the rows at ${step}`, [from >= 0, from <= step, step < from + rows, from + rows <= 300], [true, true, true, true]);
      }
      same('they stay', new Set(Array.from({ length: 12 }, (_, at) => windowOf(300, 120 + at, 24).from)).size, 1);
      same('few steps', windowOf(5, 3, 24).from, 0);
    },
    // By the panel of R2's end of a link: each router of the link hears what is sent to the group, this one last.
    'a forged Response comes to each router of the link': () => {
      const before = traceOf(`${three}rounds 3 0 15000\n`), panel = more => ACTIONS.iface(viewOf(more, more.steps.length - 1), { router: 2, iface: 0 }).text;
      const lines = text => [...text.matchAll(/data-lines="((?:liar|stranger) [^"]*)"/g)].map(([, line]) => line.split('\n').map(one => one.split(' ').slice(0, 4).join(' ')));
      same('its lines', lines(panel(before)).slice(0, 2), [['stranger 1 1 {now}', 'stranger 2 0 +0'], ['liar 1 1 {now}', 'liar 2 0 +0']]);
      same('who hears it', /Both come to R1 and R2\./.test(panel(before)), true);
      same('over a cut link', lines(panel(traceOf(`${three}cut 1\n`))).slice(0, 2), [['stranger 2 0 {now}'], ['liar 2 0 {now}']]);
      const trace = traceOf(`${three}rounds 3 0 15000\nliar 1 1 31000 fe80::66 ${PREFIX} 1\nliar 2 0 +0 fe80::66 ${PREFIX} 1\n`), view = atEnd(trace, { since: trace.steps.length - 3 });
      same('the host', outsidersIn({ ...view, prefix: PREFIX }).map(({ link, source, isOutside, told, hearers }) => [link, source, isOutside, told, hearers.map(({ end }) => end.router)]), [[1, 'fe80::66', false, 1, [1, 2]]]);
      same('as drawn', [/<g class="outsider"/.test(drawn(view)), drawn(view).includes('fe80::66, a host that is no router on the link, sends a forged Response to R1 and R2'), (drawn(view).match(/class="forged/g) ?? []).length], [true, true, 2]);
      same('its arrows in the time diagram', arrows(timed(view)).filter(({ is }) => is.startsWith('foreign')).map(({ label }) => label), ['fe80::66, which is no router, sends to R1', 'fe80::66, which is no router, sends to R2']);
      const outside = traceOf(`${three}stranger 1 1 10 fe80::66 521 254 group 02010000\n`);
      same('one from outside', [...drawn(atEnd(outside)).matchAll(/<title>(fe80[^<]*)</g)].map(([, text]) => text), ['fe80::66, a host that is no router from outside the link, sends a forged Response to R1, which refuses it']);
    },
    // With R0 cut off, R1 and R2 of a ring of three send packets to each other in the counting of a ring without split horizon.
    'next hops at each step': () => {
      const trace = traceOf(`${three}rounds 3 0 15000\n`), hops = view => (drawn(view).match(/class="packet[^"]*"/g) ?? []);
      same('where nothing is chosen', [hops(atEnd(trace)).length, hops(atEnd(trace, { hasHops: true })).length], [0, 2]);
      const loop = traceOf(`${three}rounds 3 0 15000\nhorizon 2 none\ndown 0 31000\ntell 2 45000\n`);
      same('a loop', hops(atEnd(loop, { hasHops: true })), ['class="packet astray"', 'class="packet astray"']);
      const checks = [{ line: 99, router: 2, prefix: PREFIX, wanted: '?', step: 99, isBlank: true }];
      same('while a blank is open', hops(atEnd(trace, { hasHops: true, checks })).length, 0);
    },
    'packets that run': () => {
      const fateOf = (script, router) => { const trace = traceOf(three + script), { hops, fate, isHalfWay } = runOf(trace, trace.steps.at(-1), router, PREFIX); return [hops.length, fate, isHalfWay]; };
      same('one arrives', fateOf('rounds 3 0 15000\n', 2), [2, 'arrives', false]);
      same('one has no route', fateOf('round 0\n', 2), [0, 'dropped', false]);
      same('one is lost on a cut link', fateOf('rounds 3 0 15000\ncut 0\n', 2), [2, 'lost', true]);
      same('one comes to a router that is down', fateOf('rounds 3 0 15000\nsilent 1\n', 2), [1, 'lost', false]);
      same('one circles: in all three times', fateOf('rounds 3 0 15000\nhorizon 2 none\ndown 0 31000\ntell 2 45000\n', 2), [6, 'circles', false]);
      const trace = traceOf(`${three}rounds 3 0 15000\ncut 0\n`), view = atEnd(trace, { isSending: true });
      same('as drawn', [...drawn(view).matchAll(/<g class="run ([^"]*)" role="img" aria-label="([^"]*)"/g)].map(([, is, says]) => `${is}: ${says}`),
        ['arrives: a packet from R0 arrives', 'lost: a packet from R1 is lost', 'lost: a packet from R2 is lost']);
      same('from whom', [runnersOf(view, 2), runnersOf(view, undefined), runnersOf(atEnd(traceOf(`${three}silent 1\n`)), undefined)], [[2], [0, 1, 2], [0, 2]]);
      same('the one that was chosen', (drawn({ ...view, chosen: 'router 2' }).match(/class="run /g) ?? []).length, 1);
    },
    // Two routers, the owner withdraws: with poisoned reverse R1 is at 16 by the next round; without split horizon the owner
    // hears 2 of R1 and has 3, and so they count.
    'the same under another horizon': () => {
      const script = `${networkScript('line', 2)}rounds 2 0 30000\ndrop 0 31000 ${PREFIX}\nround 60000\nexpect 1 ${PREFIX} 16\nround 90000\n`, trace = traceOf(script);
      const { name, versions } = horizonsOf(script, trace), [none, split] = versions.map(ranAs);
      same('the script itself', name, 'poisoned reverse');
      same('the others', versions.map(one => one.name), ['no split horizon', 'split horizon']);
      same('at the end', [heldOf({ trace }), heldOf(none), heldOf(split)].map(text => text.split(' ')[1]), ['16', '4', '16']);
      same('lines are those of the script', [...new Set(none.trace.steps.map(({ record }) => record.line))].filter(line => line > 8), [...new Set(trace.steps.map(({ record }) => record.line))].filter(line => line > 8));
      const view = atEnd(trace, { versus: { name, trace, runs: [none, split] } });
      same('what is said', /R1: no path for \d+ s \(poisoned reverse\), metric 4 \(no split horizon\)/.test(plain(versionsText(view))), true);
      const refusing = { ...view, versus: { ...view.versus, runs: [{ ...none, off: 2 }, split] } };
      same('what is left out', plain(versionsText(refusing)).endsWith('Lines that "no split horizon" refuses, left out of it: 2.'), true);
      same('a script with horizons', horizonsOf(`${three}horizon 2 none\n`, traceOf(`${three}horizon 2 none\n`)).versions.map(({ name: one, script: text }) => [one, /^#horizon 2 none$/m.test(text)]),
        [['no split horizon', true], ['split horizon', true], ['poisoned reverse', true]]);
    },
    // A line of four: by rounds news goes a hop in 30 s, by triggered updates a hop in a second.
    'the same with triggered updates': () => {
      const script = `${networkScript('line', 4)}rounds 2 0 30000\nround 60000\n`, trace = traceOf(script), early = ({ steps }) => steps.findLastIndex(({ record }) => record.record === 'event' && record.now < 30000);
      same('whether it has some', triggeredLines(script, trace), []);
      const maker = withTriggered(script, trace);
      let next = maker.next();
      while (!next.done) next = maker.next(traceOf(next.value));
      const { trace: waves, script: text } = ranAs(next.value);
      same('behind the first round', [metricsOf(trace, early(trace)), metricsOf(waves, early(waves))], ['1 2 - -', '1 2 3 4']);
      same('its waves', text.match(/^tell .*$/gm).slice(0, 2), ['tell 1 1000 0', 'tell 2 2000 0']);
      same('lines are those of the script', [...new Set(waves.steps.map(({ record }) => record.line))], [...new Set(trace.steps.map(({ record }) => record.line))]);
      // A script with triggered updates, and without them.
      const own = `${networkScript('line', 4)}round 0\ntell 1 1000 0\ntell 2 2000 0\nexpect 3 ${PREFIX} 4\nround 30000\n`, had = traceOf(own), without = ranAs(withoutTriggered(own, had));
      same('lines that are one', triggeredLines(own, had).map(line => own.split('\n')[line - 1]), ['tell 1 1000 0', 'tell 2 2000 0']);
      same('without', [metricsOf(had), metricsOf(without.trace)], ['1 2 3 4', '1 2 3 -']);
    },
  };
}
