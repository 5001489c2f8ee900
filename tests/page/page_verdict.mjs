// What the page says first of a step, and what it keeps to itself while a blank is open, for tests/page/page.mjs, by hand.
import { packetDetail, verdictOf } from '../../page/src/forwarding.js';
import { tablesOf, tallyOf } from '../../page/src/tables.js';
import { offersOf } from '../../page/src/walks.js';
import { veiled } from '../../page/src/veiling.js';
import { checksOf, captionsOf, expectationsOf, withAnswerApart } from '../../page/src/lessons.js';

export function verdictCases({ same, traceOf, three }) {
  const plain = ({ text }) => text.replace(/<[^>]*>/g, '').replace(/\s+/g, ' ').trim();
  const told = script => { const trace = traceOf(three + script); return plain(verdictOf({ trace, step: trace.steps.length - 1, chosen: null })); };
  return {
    // A line of three with the owner at its end.
    'what is said on top': () => {
      same('all is well', told('rounds 3 0 15000\n'), 'Packets for 2001:db8::/32 arrive from each router. Routes still change.');
      same('a while later', told('rounds 6 0 15000\n'), 'Packets for 2001:db8::/32 arrive from each router. No route has changed for 60 s.');
      same('the owner is down', told('rounds 6 0 15000\nsilent 0\n'), 'Packets for 2001:db8::/32 from R1, R2 are lost at R0. No route has changed for 60 s.');
      same('a link is cut', told('rounds 6 0 15000\ncut 1\n'), 'Packets for 2001:db8::/32 from R2 are lost at link 1, which is cut. No route has changed for 60 s.');
      same('no route yet', told('round 0\n'), 'Packets for 2001:db8::/32 from R2 are dropped: there is no route. Routes still change.');
    },
    // R1 withdraws nothing: it is told worse by its next hop, whose link costs more now, and believes it.
    'believed though worse': () => {
      const trace = traceOf(`${three}rounds 3 0 15000\ncost 1 0 40000 5\nround 45000\n`), step = trace.steps.findLastIndex(({ record }) => record.event?.kind === 'deliver' && record.router === 1 && record.offers.length > 0 && trace.datagrams[record.event.datagram].router === 0);
      same('the outcome', offersOf(trace, step).map(({ before, after, outcome }) => [before, after, outcome]), [[2, 6, 'from its next hop: believed though worse']]);
    },
    'an open blank leaves no trail': () => {
      const script = `${three}round 0\nround 15000\nexpect 2 2001:db8::/32 ?\n`, whole = traceOf(script), checks = checksOf(whole, expectationsOf(script)), trace = veiled(whole, checks);
      const state = { trace, step: trace.steps.length - 1, chosen: null, typed: {}, place: 'end', checks };
      same('on top', [plain(verdictOf(state)), plain(tallyOf(state))], ['', '']);
      same('of packets', plain(packetDetail(state, { router: 2, target: '2001:db8::/32' })), 'Blanks ask for metrics. Fill them in, and the page says where packets go.');
      same('when it expires', tablesOf(state).map(({ text }) => /in \d+ s/.test(text)), [false, true, false]);
    },
    'the answer stands apart': () => {
      same('it', withAnswerApart('So it goes. Answer: sixteen.'), { prose: 'So it goes.', answer: 'sixteen.' });
      same('without one', withAnswerApart('So it goes.'), { prose: 'So it goes.', answer: '' });
      same('a question stays, beside remarks on interfaces', captionsOf('# How long?\nrouter\n# An odd MTU.\niface\ncold 0').at(-2), 'How long?');
    },
  };
}
