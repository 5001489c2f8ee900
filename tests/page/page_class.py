"""What a teacher, a class and a newcomer do with the page, for tests/page/page.py: each case plays one of tests/page/page_class.js."""

import pathlib

from suite import same

ROOT = pathlib.Path(__file__).resolve().parents[2]


def example(name):
    return (ROOT / "examples" / f"{name}.lab").read_text()


class ClassCases:
    """What `report` says of each play."""

    def rounds(self, folder):
        """A ring of five, by hand: in the first round R0 alone sends, two datagrams, and R1 and R4 learn; in the second R2 and R3. The start
        has one step, the first round five ticks and two deliveries, the second five and six."""
        same("the report", self.report(folder, "seeRounds"),
             ["true | 2 | R1 R4 | 1 2 2", "1,4 | 0", "R2 R3 | 1 2 3 3 2", "R1 R4 | 1 2 2 | step 8 of 19", "R2 R3 | 1 2 3 3 2 | 10"])

    def updates(self, folder):
        """A line of three: after four Requests and one update of the first round R0 sends 5, and R1 6 and 7. A second triggered update within
        the first second waits for its end."""
        same("the report", self.report(folder, "seeUpdates"),
             ["link 0 6 2001:db8::/32 at 16 (poisoned reverse) | link 1 7 2001:db8::/32 at 2",
              "Line 17: R0: a triggered update waits | It has changes to advertise, but its triggered updates are delayed until 21.000 s."])

    def losing(self, folder):
        same("the report", self.report(folder, "loseAll"),
             ["1 2 | 1 | The round was split into its datagrams, to lose one of them.", "0", "lose 4,hear | 1", "hear | 1 2", "true"])

    def forging(self, folder):
        """The metric of the forged Response is 1, and so 2 for R2, where 3 is right."""
        believed = "R2 believes a forged Response of fe80::66, 2001:db8::/32 at 2 | 1 2 2"
        same("the report", self.report(folder, "forge"),
             ["R2 receives a datagram of an outside host, fe80::66 port 521 refused: sent to the group, it has to come with hop limit 255 "
              "(10 HopLimit) | 1 2 3", believed, believed,
              "Not added: this could only come from a router of the link (5 NotAStranger); the router takes it for a neighbor's: "
              "liar forges a Response",
              "2 of 3 metrics belong to a path that is or was there. 2 of 3 routes are shortest paths. After a forged update, "
              "or with a router that is not RIPng, nothing is guaranteed. | 1"])

    def cutting(self, folder):
        """R4 has heard R0 last at 120 s. Rounds come at 135 s and each 30 s later, so its route times out in the seventh. A link from R0 to R2
        gives R2 2, a round before R3 hears of it."""
        same("the report", self.report(folder, "cutLinks"),
             ["This walk goes over link 4, which was cut in line 21. R4 notices at 300 s, in 180 s, unless it learns another route before. | 1 | "
              "A packet for 2001:db8::/32 from here, by the tables: R4 → R0, to R0, which originates it. But it is lost on hop 1, R4 → R0: link 4 was cut "
              "in line 21, and no table knows that.",
              "rounds 7 135000 30000 | A route changed in round 7 from here, 3 minutes later. | 2", "true | 1 2 3 4 5", "true",
              "true | mend 5 | Link 5 to R2 comes up now. In the script it stands from the start, and is cut until here.", "1 2 2 4 5", "9,9"])

    def lessons(self, folder):
        script = example("lessons/11-ring-of-three").split("\n")
        expects = [line for line in script if line.startswith("expect")]
        first = 1 + script.index(expects[0])
        checks = ",".join(f"✓ R{router}, 2001:db8::/32: expected {metric}, found {metric}" for router, metric in enumerate((4, 16, 16)))
        same("the report", self.report(folder, "takeLessons"),
             ["Lesson 1 of 32: How routes come | true | Question: two routers are on one link, and the first has a prefix. How does the second learn "
              "of it, with which metric, and does the first then believe its own news?",
              "32-two-routers.lab | Lesson 2 of 32: How routes come | false",
              f"They poison each other's route, but each has advertised it to the owner, which now believes R1. | 4 16 16 | {checks}",
              f"{len(expects)} | {len(expects)}", f"0 | 1 | {first} | Line {first}: expected R1 2001:db8::/32 5 found 2. Nothing behind it was run."])

    def asking(self, folder):
        """By hand: router 3 answers with 10 at once, router 2 with 11 a second later; without asking both wait for the next round. The last
        round here is at 120 s: by then the routers hold the same both ways."""
        why = "it lost the route to 2001:db8::/32 at 76.000 s"
        named = why.replace("it", "R2", 1)
        differs = "R2: metric 11 with asking, no path for 1.5 s without; R3: metric 10 with asking, no path for 1.5 s without."
        line = example("lessons/31-asking").split("\n").index("tick 2 76500") + 1
        same("the report", self.report(folder, "askAround"),
             ["false", f"true | with asking | {line} R2 asks its neighbors: {why}", f"Why R2 asks: {why}. No link came up. | 1 | a Request: {named}",
              f"It is a Request: {named}. | request", "without asking | 1 2 16 16 | at 77.500 s | 0 | ",
              'This is what happens without asking. To change the script, press "with asking" first.',
              f"with asking | 1 2 11 10 | {differs} | ", "side by side | 1 2 11 10 | 1 2 16 16 | true | true", "without asking | 1 2 16 16 | true",
              "side by side | 1 2 11 10 | 1 2 11 10 | own-31-asking.lab", "false | true"])

    def embedded(self, folder):
        route = "router=1&prefix=2001:db8::/32"
        same("the report", self.report(folder, "seeEmbedded", fragment=f"ring-of-three&step=5&{route}&embed"),
             ["11-ring-of-three.lab | step 5 of 205 | route 1 2001:db8::/32", "#prose,#network,#step,#slider,#verdict,#whole",
              f"#11-ring-of-three&step=6&{route}&embed | #11-ring-of-three&step=6&{route} | true"])

    def blanks(self, folder):
        same("the report", self.report(folder, "fillBlanks"),
             ["2 | false", "A metric is 1 to 16, or none.", "✗ not 2", "✓ R1, 2001:db8::/32: expected 3, found 3 | 1 | own-exercise-02-line.lab | true",
              "2 | step 5 of 11"])

    def names(self, folder):
        walk = "1 + 1 = 2: 1 at the owner, and the cost of each hop. 1 hop to the owner, R1 →"
        same("the report", self.report(folder, "nameRouters"),
             [f"{walk} Berlin. | Berlin | R0 | Berlin · 2001:db8::/32", "0", f"{walk} Bonn. | Bonn | Bonn | 2001:db8::/32"])

    def quiz(self, folder):
        same("the report", self.report(folder, "playQuiz"), ["#caption,#detail,#events | ? ? ?", "1 2 3 | 2 of 3 right, 1 at the first guess.", "true | 1 2 3"])

    def matrix(self, folder):
        same("the report", self.report(folder, "seeMatrix"), ["12 | 1,2,3,4,5,6,·", "Why has R3 metric 4 for 2001:db8::/32?", "6"])

    def removing(self, folder):
        """Without link 4 the ring is a line. Without R1 it is R0, R4, R3, R2, of which the last three are R3, R2, R1 then. Two lines are the
        link's; five are R1's or those of the links to it."""
        same("the report", self.report(folder, "removeThings"),
             ["5,4,1 2 3 4 5 | Link 4 is removed, and with it 2 lines. | nothing", "5,5,1 2 3 3 2",
              "4,3,1 4 3 2 | R1 is removed, and with it 5 lines.", "2,1,1 | true | true | true"])

    def packets(self, folder):
        """At the first `print` of the lesson b and c hold 3 by each other; in the end c has its own link to a."""
        same("the report", self.report(folder, "followPackets"),
             ["A packet for 2001:db8::1 from here, by the tables: b → c → b, a loop from b on: it circles until its hop limit ends. | 2 | 2 | 0",
              "router=1,packet=2001:db8::1", "Packets for 2001:db8::1: from b, c they circle; from a they are dropped. | 2", "That is no address and no prefix of IPv6.",
              "A packet for ::1 from here, by the tables: b, dropped: b has no route. | 1",
              "A packet for 2001:db8::/32 from here, by the tables: c → a, delivered: a originates it. | Where does a packet from c for 2001:db8::/32 go?",
              "Why has c metric 2 for 2001:db8::/32? | 1 | 1"])

    def crowds(self, folder):
        same("the report", self.report(folder, "seeCrowds"),
             ["40 | false,false,", "2 | R2,R3", "R2,R3", "No router and no prefix is named so.", "40", "true,true,roomy | true | true", "false,false,", "filter"])

    def letters(self, folder):
        same("the report", self.report(folder, "useLetters"),
             ["round 0", "cut 4 | link 4 of R0 and R4, cut", "mend 4", "Why has R1 metric 2 for 2001:db8::/32?", "true",
              "Choose a router or a route first.", "true", "true", "32-two-routers.lab", "01-one-hop.lab"])
