// Routers that ask by themselves, as the page shows them, for tests/page/page.mjs: why, on the envelope too, and the same without.
import { readFileSync } from 'node:fs';
import { fileURLToPath } from 'node:url';
import { askingText, hasAsking, stepBeside, withoutAsking } from '../../page/src/asking.js';
import { detailOf, eventOf } from '../../page/src/detail.js';
import { layOut, wiringOf } from '../../page/src/layout.js';
import { drawingOf } from '../../page/src/drawing.js';
import { veiled } from '../../page/src/veiling.js';

export function askingCases({ ran, same, traceOf, three }) {
  const LESSON = readFileSync(fileURLToPath(new URL('../../examples/lessons/31-asking.lab', import.meta.url)), 'utf8');
  const plain = ({ text }) => text.replace(/<[^>]*>/g, '').replace(/\s+/g, ' ').trim();
  const view = (trace, step, more = {}) => ({ trace, step, wiring: wiringOf(trace), typed: {}, place: 'end', chosen: null, ...more });
  const titles = (trace, step, more = {}) => {
    const state = { ...view(trace, step, more), spots: layOut(wiringOf(trace)), pane: { width: 500, height: 400 }, shifts: [] };
    return drawingOf(state).parts.flatMap(({ text }) => [...text.matchAll(/<title>(datagram [^<]*)<\/title>/g)].map(([, title]) => title));
  };
  return {
    // Each reason of the page is that of `--explain`, word for word, and stands at each Request that follows it.
    'why routers ask': () => {
      const trace = traceOf(LESSON), explained = ran(LESSON, '--explain').split('\n');
      const wanted = explained.filter(line => line.includes('asks its neighbors')).map(line => line.split(' s ').slice(1).join(' s '));
      const asks = trace.steps.filter(({ record }) => record.record === 'asks'), told = asks.map(step => plain(eventOf(step, 0, trace.names)).replace(/^\d+ /, ''));
      same('in the list', [told.length > 1, told], [true, wanted]);
      const asked = trace.datagrams.filter(({ asks: why }) => why), lines = explained.filter(line => /asks on interface \d+; datagram \d+ is sent/.test(line));
      same('the questions', asked.map(({ datagram }) => datagram), lines.map(line => Number(/datagram (\d+)/.exec(line)[1])));
      for (const { datagram, router, sentAt } of asked) {
        const why = wanted.find(text => text.startsWith(`R${router} `)).split(': ')[1];
        same(`what is told of ${datagram}`, [plain(detailOf(view(trace, sentAt))), plain(detailOf(view(trace, sentAt, { chosen: `datagram ${datagram}` })))].map(text => /lost .*/.exec(text)[0].startsWith(why.replace('it ', ''))), [true, true]);
        same('its envelope', titles(trace, sentAt).filter(title => title.startsWith(`datagram ${datagram} of R${router}`) && title.endsWith(`, a Request: ${why.replace('it', `R${router}`)}`)).length, 1);
      }
      same('in the list, each', asked.map(({ sentAt }) => plain(eventOf(trace.steps[sentAt], 0, trace.names)).includes('asks on interface')), asked.map(() => true));
    },
    // Router 0 answers router 3, which has a path then: that is said of the answer. A link that comes up is no question.
    'what answers a question': () => {
      const trace = traceOf(LESSON), answers = trace.datagrams.filter(({ asks, answers: to, sentAt }) => !asks && trace.datagrams[to]?.asks && sentAt > 0);
      same('who answers whom', answers.map(({ router, answers: to }) => [router, trace.datagrams[to].router]), [[3, 2], [2, 3], [0, 3]]);
      const { datagram, answers: to, arrivals: [{ step }] } = answers.at(-1);
      same('where it comes', [plain(detailOf(view(trace, step))).includes(`It is the answer to R3's datagram ${to}.`), titles(trace, step).includes(`datagram ${datagram} of R0 comes to R3, the answer to datagram ${to}`)], [true, true]);
      const up = traceOf(`${three}rounds 3 0 15000\ndown 1 40000\nup 1 50000\n`), { record } = up.steps.at(-1);
      same('a link that comes up', [record.asks ?? null, up.datagrams.some(({ asks }) => asks), plain(eventOf(up.steps.at(-1), 0, up.names)).includes('the link of interface 0 is up')], [null, false, true]);
    },
    // A blank that asks for what was lost is not answered by the reason.
    'a blank and the reason': () => {
      const script = `${three}rounds 3 0 15000\nasking\ndown 0 31000\ntick 1 31500 0\nexpect 1 2001:db8::/32 ?\n`, trace = traceOf(script), step = trace.steps.length - 1;
      const checks = [{ line: 14, router: 1, prefix: '2001:db8::/32', wanted: '?', step, isBlank: true }];
      same('whether it asks', trace.steps[step].record.asks?.router, 1);
      same('what is told', [titles(veiled(trace, checks), step, { checks }), plain(detailOf(view(veiled(trace, checks), step, { checks })))].map(text => /to 2001:db8::\/32 at/.test(text)), [false, false]);
      same('in a quiz', titles(trace, step, { isQuiz: true, guesses: new Map() }).some(title => title.includes('lost')), false);
    },
    // By hand: link 1 goes down at 76 s. Router 3 has the other path half a second later, router 2 one second after that; by
    // regular updates router 3 has it after the round at 90 s.
    'the same without asking': () => {
      const trace = traceOf(LESSON), other = traceOf(withoutAsking(LESSON)), atEnd = line => trace.steps.findLastIndex(({ record }) => record.line === line);
      const lineOf = text => LESSON.split('\n').findIndex((line, at) => at > 40 && line.startsWith(text)) + 1;
      same('whether one is there', [hasAsking(LESSON), hasAsking(three), hasAsking('askings\n#asking\n')], [true, false, false]);
      same('the lines', withoutAsking('asking\n# so\ncut 1\nexpect 0 ::/0 1\nrefused X\n\nhear but 0\nround 0\nasking off').split('\n'),
        ['#asking', '# so', 'cut 1', '#expect 0 ::/0 1', '#refused X', '', '#hear but 0', 'round 0', '#asking off']);
      same('nobody asks', [other.steps.some(({ record }) => record.record === 'asks'), other.steps.at(-1).record.record], [false, 'event']);
      const told = line => plain(askingText({ trace, step: atEnd(line), chosen: null, asking: { trace, other } }));
      same('before', told(lineOf('down 1 76000')), 'With asking and without the routers hold the same for 2001:db8::/32.');
      same('after a second and a half', told(lineOf('tell 3 77500')), 'R2: metric 11 with asking, no path for 1.5 s without; R3: metric 10 with asking, no path for 1.5 s without.');
      same('after the round', told(lineOf('round 90000')), 'R2: metric 11 with asking, no path for 14 s without.');
      const back = step => plain(askingText({ trace: other, step: stepBeside(trace, other, step), chosen: null, asking: { trace, other } }));
      same('seen from the other', back(atEnd(lineOf('tell 3 77500'))), told(lineOf('tell 3 77500')));
      for (let step = 0; step < trace.steps.length; step++) {
        const at = stepBeside(trace, other, step), { line } = trace.steps[step].record, has = other.steps.some(({ record }) => record.line === line);
        same(`the line beside step ${step}`, has ? other.steps[at].record.line === line : other.steps[at].record.line < line, true);
      }
    },
  };
}
