// Branches of a script: what came after an act is set aside in it, as remarks, and can be gone back to. A line `#fork N` stands
// where branch N leaves the script, and at the script's end, behind `#branch N`, each line of the other way, as `#| LINE`.
import { passingsOf, sentBeforeOf, turnsOf } from './losses.js';
import { BRANCH } from './building.js';

const SET_ASIDE = /^#\| ?/, isOfPlaces = line => line.startsWith('#places '), isNoPlaces = line => !isOfPlaces(line);
const allLines = script => script.replace(/\n*$/, '').split('\n');

// A script's own lines, and those of its branches by their numbers.
function parted(script) {
  const lines = allLines(script), end = lines.findIndex(line => BRANCH.test(line)), own = end < 0 ? lines : lines.slice(0, end);
  const branches = new Map();
  let number = null;
  for (const line of lines.slice(own.length)) {
    if (BRANCH.test(line)) branches.set(number = Number(BRANCH.exec(line)[1]), []);
    else if (SET_ASIDE.test(line) && number !== null) branches.get(number).push(line.replace(SET_ASIDE, ''));
    else own.push(line);
  }
  return { own, branches };
}

// Past the forks that stand at a line: branches that leave at the same place.
function pastForks(own, at) {
  while (/^#fork \d+$/.test(own[at])) at++;
  return at;
}

function joinedAgain({ own, branches }) {
  const blocks = [...branches].flatMap(([number, lines]) => [`#branch ${number}`, ...lines.map(line => `#| ${line}`.trimEnd())]);
  return [...own, ...blocks, ''].join('\n');
}

// The branches that leave the script where it goes now, each with the line of its fork, and what its lines are.
export function branchesOf(script) {
  const { own, branches } = parted(script);
  return [...branches].flatMap(([number, lines]) => {
    const fork = own.indexOf(`#fork ${number}`);
    return fork < 0 ? [] : [{ number, line: fork + 1, there: toldOf(lines), here: toldOf(own.slice(fork + 1)) }];
  });
}
function toldOf(lines) {
  const [first, ...more] = lines.filter(line => line && !line.startsWith('#'));
  return first ? `${first}${more.length > 0 ? `, and ${more.length} more` : ''}` : 'nothing more';
}

// The script with lines put in at a step, as an edit; what followed is a branch of it. A round that has not ended there is done
// up to the step. `first` is the number of the first line that was put in.
export function branched(trace, script, step, added) {
  const { own, branches } = parted(script), { line } = trace.steps[step].record;
  const begun = begunAt(trace, script, step), at = begun ? line - 1 : pastForks(own, line), number = Math.max(0, ...branches.keys()) + 1;
  branches.set(number, own.slice(at).filter(isNoPlaces));
  const kept = [...own.slice(0, at), `#fork ${number}`, ...begun ?? []];
  const edited = joinedAgain({ own: [...kept, ...added, ...own.slice(at).filter(isOfPlaces)], branches });
  return { script: edited, first: kept.length + 1, number, origins: allLines(edited).map((_, index) => index < at ? index + 1 : 0) };
}

// The script as it goes by a branch; what it did instead is the branch then.
export function switched(script, number) {
  const { own, branches } = parted(script), fork = own.indexOf(`#fork ${number}`);
  if (fork < 0) return null;
  const past = pastForks(own, fork), instead = own.slice(past), now = [...branches.get(number), ...instead.filter(isOfPlaces)];
  return joinedAgain({ own: [...own.slice(0, past), ...now], branches: branches.set(number, instead.filter(isNoPlaces)) });
}

// The script without a branch.
export function withoutBranch(script, number) {
  const { own, branches } = parted(script);
  branches.delete(number);
  return joinedAgain({ own: own.filter(line => line !== `#fork ${number}`), branches });
}

// Of a line that has not ended at a step, lines that do what it did up to there; null where it has ended, or is one that is done
// whole: phases made by chance, or a link that goes down at both ends.
export function begunAt(trace, script, step) {
  const { steps } = trace, { line } = steps[step].record, words = (script.split('\n')[line - 1] ?? '').split(' ');
  if (steps[step + 1]?.record.line !== line || !/^(round|rounds|tell|hear|run)$/.test(words[0])) return null;
  const own = [...steps.keys()].filter(one => steps[one].record.line === line), turns = /^(hear|run)$/.test(words[0]) ? [own] : turnsOf(steps, own);
  const turn = turns.findIndex(one => one.includes(step)), from = steps[own[0]].record.now, gap = Number(words[3]);
  const whole = turn === 0 ? [] : [turn === 1 ? `round ${from}` : `rounds ${turn} ${from} ${gap}`];
  const word = words[0] === 'tell' && /^\d+$/.test(words[3]) ? words[3] : 0;
  const events = turns[turn].filter(one => one <= step).map(one => steps[one].record).filter(({ event }) => /^(tick|deliver|liar)$/.test(event?.kind));
  return [...whole, ...passedBefore(trace, script, turns[turn], words[0]), ...events.map(record => lineDoing(record, words[0] === 'run' ? record.event.word : word))];
}
const lineDoing = ({ router, now, event }, word) =>
  event.kind === 'tick' ? `tick ${router} ${now} ${word}` : `deliver ${event.datagram} ${router} ${event.iface} ${now}`;

// A round passes by what is under way when it begins, and lines that do the same have to.
function passedBefore(trace, script, turn, word) {
  if (!/^rounds?$/.test(word)) return [];
  const passings = passingsOf(trace, script.split('\n')), at = passings.findIndex(passing => passing.turn.includes(turn[0]));
  const pending = sentBeforeOf(trace.steps, trace.datagrams)(turn[0]) - Math.max(0, ...passings.slice(0, at).map(({ below }) => below));
  return pending > 0 ? [`hear but ${Array.from({ length: pending }, (_, index) => index).join(' ')}`] : [];
}
