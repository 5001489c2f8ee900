// The capture that the page saves, for tests/page/page.mjs: its bytes are those that the program writes for the same script.
import { mkdtempSync, readFileSync, readdirSync, rmSync } from 'node:fs';
import { tmpdir } from 'node:os';
import { join } from 'node:path';
import { fileURLToPath } from 'node:url';
import { runnable } from '../../page/src/lessons.js';
import { captureOf } from '../../page/src/pcap.js';

// Asks, of which one is answered, and strangers that are refused: one with an odd number of bytes, one with none. Two lines of lost datagrams,
// a liar, and a router without poisoned reverse: in each of two rounds a sends back on link 7 what it has of there, to R0 and to b.
const ALL_KINDS = `router
iface fe80::a0 1 1280 7
own 2001:db8::/32 0
router a
iface fe80::b0 1 1280 7
iface fe80::b1 1 1280 10
router b
iface fe80::c0 1 1280 7
router
iface fe80::d0 1 1280 10
cold 1000
tick 0 1000 0
lose 0
round 1000
ask a 0 1010 fe80::99 521 all
ask a 1 1010 2001:db8::99 5000 2001:db8::/32
stranger a 0 1020 fe80::9 521 254 group 020100
stranger 0 0 1030 fe80::9 520 255 group 02010000
stranger 3 0 1040 ff02::1 521 255 peer -
stranger 3 0 1050 fe80::9 521 255 group 01010000000000000000000000000000000000000000000010
restart b 1060
cut 7
round 16000
mend 7
rounds 2 31000 30000
liar b 0 61001 fe80::66 2001:db8:9::/48 1
horizon a none
rounds 2 91000 30000
shutdown a 121000
tick 4 121000 0
print
`;
// An interface hears the other of its router, which is refused as often as it comes.
const REFUSED_OFTEN = `router
iface fe80::a0 1 1280 0
iface fe80::a1 1 1280 0
cold 0
${'deliver 0 0 1 0\n'.repeat(60)}`;

export function pcapCases({ ran, same, traceOf }) {
  // Whether it is so, and how many of its packets have a comment with a word.
  function compare(name, script, folder) {
    const path = join(folder, 'made.pcapng'), trace = traceOf(script), made = Buffer.from(captureOf(trace));
    ran(runnable(script), '--pcap', path);
    const wanted = readFileSync(path), at = made.findIndex((byte, index) => byte !== wanted[index]);
    same(`the capture of ${name}: its length, and where it is another`, [made.length, at], [wanted.length, -1]);
    return { bytes: made.length, said: word => made.toString('latin1').split(word).length - 1 };
  }
  function inFolder(compareAll) {
    const folder = mkdtempSync(join(tmpdir(), 'page-pcap-'));
    try {
      return compareAll(folder);
    } finally {
      rmSync(folder, { recursive: true });
    }
  }
  return {
    'captures of examples, lessons and exercises': () => inFolder(folder => {
      const folders = ['../../examples/', '../../examples/lessons/', '../../examples/exercises/'].map(path => fileURLToPath(new URL(path, import.meta.url)));
      const files = folders.flatMap(path => readdirSync(path).filter(file => file.endsWith('.lab')).map(file => path + file));
      const bytes = files.reduce((sum, file) => sum + compare(file, readFileSync(file, 'utf8'), folder).bytes, 0);
      return `: ${files.length} of them, ${bytes} bytes`;
    }),
    // A refusal of 26 bytes, and two between them: after 35 of them, 978 bytes, one more comes, and behind 1,000 none.
    'captures of what is refused, forged and lost': () => inFolder(folder => {
      const { said } = compare('all kinds', ALL_KINDS, folder), often = compare('refusals', REFUSED_OFTEN, folder);
      const words = ['refused by a: 1 Short', 'refused by 0: 7 NotRipngPort', 'refused by 3: 1 Short', 'refused by 3: 3 Ragged', 'refused by', 'forged'];
      same('how often each is said', words.map(said), [1, 1, 1, 1, 4, 5]);
      same('how often it is refused', often.said('refused by 0: 9 OwnAddress'), 36);
      for (const head of ['  router Bonn', 'router # No name', 'router Bonn # A name', 'router quiet Bonn', 'router  Bonn', 'router Bonn\r']) compare(head, REFUSED_OFTEN.replace('router', head), folder);
      same('a script without a network', compare('no network', 'router\n', folder).bytes, 28);
    }),
  };
}
