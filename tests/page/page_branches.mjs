// Branches of a script, for tests/page/page.mjs: what an act in the middle sets aside, and what comes back.
import { begunAt, branched, branchesOf, switched, withoutBranch } from '../../page/src/branching.js';
import { inserted, ownLines, withPlaces } from '../../page/src/building.js';
import { captionsOf } from '../../page/src/lessons.js';

export function branchCases({ same, traceOf, three }) {
  const stateOf = ({ routers }) => routers.map(({ table, timers, interfaces, prefixes }) => [[...table.values()].map(({ route }) => route), timers, interfaces, prefixes]);
  const script = `${three}# One.\nround 0\nrounds 3 15000 15000\ncut 1\ntell 0 70000 7\ntick 1 75000 0\nhear\nmend 1\nround 90000\n`;
  return {
    // At each step, also in the middle of a round: without more lines the network is what it was there, and the way back is the script.
    'an act in the middle is done there': () => {
      const trace = traceOf(script);
      let begun = 0;
      trace.steps.slice(0, -1).forEach((step, at) => {
        const edit = branched(trace, script, at, []), after = traceOf(edit.script);
        if (begunAt(trace, script, at)) begun++;
        same(`the network at step ${at}`, stateOf(after.steps.at(-1)), stateOf(step));
        same(`what is cut at step ${at}`, [...after.steps.at(-1).out.keys()], [...step.out.keys()]);
        same(`what is under way at step ${at}`, under(after, after.steps.length - 1), under(trace, at).filter(number => !isPassedBy(trace, at, trace.datagrams[number])));
        same(`the way back from step ${at}`, withoutBranch(switched(edit.script, 1), 1), script);
      });
      same('whether rounds were in the middle', begun > 20, true);
    },
    'a branch is gone to, and dropped': () => {
      const trace = traceOf(script), at = trace.steps.findLastIndex(({ record }) => record.line === 11), edit = branched(trace, script, at, ['cut 0', 'round 15000']);
      same('the lines', edit.script.slice(three.length), '# One.\nround 0\n#fork 1\ncut 0\nround 15000\n#branch 1\n'
        + '#| rounds 3 15000 15000\n#| cut 1\n#| tell 0 70000 7\n#| tick 1 75000 0\n#| hear\n#| mend 1\n#| round 90000\n');
      same('the first', edit.script.split('\n')[edit.first - 1], 'cut 0');
      same('what is set aside', branchesOf(edit.script), [{ number: 1, line: 12, there: 'rounds 3 15000 15000, and 6 more', here: 'cut 0, and 1 more' }]);
      const other = switched(edit.script, 1);
      same('the other', branchesOf(other).map(({ there, here }) => [there, here]), [['cut 0, and 1 more', 'rounds 3 15000 15000, and 6 more']]);
      same('as it was', [traceOf(other).steps.length, switched(other, 1)], [trace.steps.length, edit.script]);
      same('captions', new Set(captionsOf(edit.script)), new Set(captionsOf(script)));
      same('new lines', inserted(edit.script, ['round 30000'], 'end', 0).script.split('\n').indexOf('round 30000'), ownLines(edit.script));
    },
    // A branch within a branch goes with it, and is there again when that is.
    'branches of branches, and places': () => {
      const placed = withPlaces(script, [{ x: 1, y: 2 }]), one = branched(traceOf(placed), placed, 4, ['cut 0', 'round 15000']).script;
      const two = branched(traceOf(one), one, 4, ['cut 1']).script;
      same('both', branchesOf(two).map(({ number }) => number), [1, 2]);
      same('where routers stand', [two, switched(two, 1)].map(text => text.match(/^#places .*$/gm).length), [1, 1]);
      const inner = branched(traceOf(one), one, traceOf(one).steps.length - 2, ['cut 1']).script;
      same('the second goes with what it is of', [inner, switched(inner, 1)].map(text => branchesOf(text).map(({ number }) => number)), [[1, 2], [1]]);
      same('all back', switched(switched(two, 1), 1), two);
    },
  };
  // What the round of a step will have passed by when it ends.
  function isPassedBy({ steps }, at, { sentAt, lostAt }) {
    const lineOf = step => steps[step]?.record.line;
    return /^rounds?/.test(script.split('\n')[lineOf(at) - 1]) && lineOf(lostAt) === lineOf(at) && lineOf(at + 1) === lineOf(at) && steps.slice(sentAt + 1, at + 1).some(({ record }) => record.event?.kind === 'tick' && record.line === lineOf(at));
  }
  function under({ datagrams }, at) {
    return datagrams.filter(({ sentAt, doneAt, lostAt }) => sentAt <= at && at < Math.min(doneAt, lostAt)).map(({ datagram }) => datagram);
  }
}
