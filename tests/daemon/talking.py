"""A router that is alone, and what it answers at its control socket."""

import re

from daemons import interface, peer, prefix
from suite import same

OWN = "2001:db8::/32"
OWN_TABLE = f"{OWN} metric 1 direct\n"


def alone(case, name="alone", *words, **environment):
    """A router that listens, with a neighbor that is not there."""
    return case.listening(name, interface(1, case.port(), peer(2, case.port())) + prefix(OWN), *words, **environment)


def plain(text):
    """An answer without its times and its counts of what time makes."""
    for pattern, word in ((r" live \d+", " live T"), (r"arrivals \d+ sends \d+", "arrivals A sends S"), (r" last \d+$", " last T")):
        text = re.sub(pattern, word, text, flags=re.M)
    return text


def answers(router, words, out="", status=0):
    """That the router answers so, and nothing is said on standard error."""
    answer = router.ctl(*words.split())
    same(f"the answer to {words}", (answer.status, plain(answer.out), answer.err), (status, out, ""))


def refuses(router, words, why):
    answers(router, words, f"refused {why}\n", 1)
