#!/usr/bin/env python3
"""Who may connect to a router's control socket, and how clients are served: one after the other, and none keeps the router from its turns.

    tests/daemon/clients.py PROGRAM [NAME..]

A line for each case that fails, and last how many passed."""

import os
import pathlib
import stat
import subprocess
import sys
import time
from errno import EAGAIN, ECONNABORTED, ECONNRESET, EINTR, EIO, EMFILE, EPIPE

sys.dont_write_bytecode = True
sys.path.append(str(pathlib.Path(__file__).resolve().parents[1] / "support"))
from daemons import interface, listed, main, peer
from datagrams import feed, table
from ordered import calls, environment
from suite import SECONDS, same, until
from talking import alone, answers, OWN_TABLE

ROUTES = int(os.environ.get("ROUTES", 20_000))


@listed
def a_router_that_is_not_told_to_listens_nowhere(case):
    router = case.start("closed", interface(1, case.port()))
    links = [os.readlink(f"/proc/{router.process.pid}/fd/{name}") for name in os.listdir(f"/proc/{router.process.pid}/fd")]
    same("the number of its sockets", len([link for link in links if link.startswith("socket:")]), 1)


@listed
def a_socket_of_a_router_that_is_gone_is_replaced(case):
    gone = alone(case, "gone")
    gone.end()
    same("whether a socket is left", stat.S_ISSOCK(os.stat(gone.path()).st_mode), True)
    answers(alone(case, "gone"), "table", OWN_TABLE)


@listed
def a_socket_at_which_somebody_answers_is_not_replaced(case):
    """A second start at it fails, with its log as it was, and disturbs nobody."""
    router = alone(case, "first")
    case.file("second.toml", interface(1, case.port()))
    case.file("second.log", "kept\n")
    second = case.run("run", "--control", "first.sock", "--turns", "1", "-R", "second.log", "second.toml")
    same("the second start", second, (3, "", "ripngd: cannot listen at first.sock: somebody answers there\n"))
    same("its log", case.read("second.log"), "kept\n")
    answers(router, "table", OWN_TABLE)


@listed
def a_file_that_another_has_made_since_is_left(case):
    """A router takes away its own socket alone at its end."""
    router = alone(case, "moved")
    client = router.client()
    os.unlink(router.path())
    case.file("moved.sock", "kept\n")
    client.say(b"stop\n")
    same("status", router.finish(), 0)
    same("the file", case.read("moved.sock"), "kept\n")


@listed
def what_is_no_socket_is_left(case):
    case.file("alone.toml", interface(1, case.port()))
    case.file("alone.sock", "kept\n")
    started = case.run("run", "--control", "alone.sock", "--turns", "1", "alone.toml")
    same("the start", started, (3, "", "ripngd: cannot listen at alone.sock\n"))
    same("the file", case.read("alone.sock"), "kept\n")


def started_under(case, mask):
    """A router that makes one turn at a socket, started under a mask."""
    words = ["bash", "-c", f'umask {mask}; exec "$0" run --control open.sock --turns 1 open.toml', case.program]
    case.file("open.toml", interface(1, case.port()))
    done = subprocess.run(words, cwd=case.folder, capture_output=True, text=True, timeout=SECONDS)
    same("whether its socket is still there", os.path.exists(f"{case.folder}/open.sock"), False)
    return done.returncode, done.stdout, done.stderr


@listed
def a_socket_that_others_may_write_to_is_refused(case):
    refused = (3, "", "ripngd: cannot listen at open.sock: others may write to it; start under umask 077\n")
    for mask in ("000", "002", "020", "075", "057"):
        same(f"the start under {mask}", started_under(case, mask), refused)
    for mask in ("022", "077", "033"):
        same(f"the start under {mask}", started_under(case, mask), (0, "", "ripngd: running, 1 interface\n"))


@listed
def clients_are_served_one_after_the_other(case):
    """Each is told what it asks, once its line is whole, and its connection then ends; what stands behind the line is not done."""
    router = alone(case)
    first, second = router.client(), router.client()
    second.say(b"table\n")
    first.say(b"ta")
    time.sleep(0.3)
    first.say(b"ble\nstop\n")
    same("the first answer", first.all(), f"{OWN_TABLE}ok\n")
    same("the second answer", second.all(), f"{OWN_TABLE}ok\n")
    same("the answer to two lines", router.client().say(b"counts\nstop\n").all()[-3:], "ok\n")
    same("whether it runs", router.is_there(), True)


@listed
def what_is_no_command_is_refused(case):
    router = alone(case)
    refused = "refused 52 NoSuchCommand\n"
    for said in (bytes(range(256)), b"\n", b" table\n", b"table \n", b"TABLE\n", b"gain 2001:DB8::/48 1\n", b"cost 00 1\n"):
        same(f"the answer to {said}", router.client().say(said).all(), refused)
    answers(router, "table", OWN_TABLE)


@listed
def a_command_is_obeyed_whatever_the_length_of_its_words(case):
    """Of addresses of 20 to 38 characters, in the commands that have one."""
    router = alone(case)
    for more in range(0, 19, 3):
        digits = [min(4, 1 + max(0, more - 3 * place)) for place in range(6)]
        addr = ":".join(["2001", "db8", *["1" * count for count in digits]])
        for line, answer in ((f"gain {addr}/128 65535", ""), (f"lookup {addr}", f"{addr}/128 metric 1 direct\n"), (f"drop {addr}/128", ""),
                             (f"peer 0 {addr} 40000", ""), (f"unpeer 0 {addr}", "")):
            same(f"the answer to {line}", router.client().say(f"{line}\n".encode()).all(), f"{answer}ok\n")


@listed
def a_line_has_1024_bytes_at_most(case):
    """Its line feed is among them. More are refused before it comes."""
    router = alone(case)
    same("the answer to a long line", router.client().say(b"a" * 5_000).all(), "refused 52 NoSuchCommand\n")
    same("the answer to 1,024 bytes", router.client().say(b"a" * 1_024).all(), "refused 52 NoSuchCommand\n")
    same("the answer to 1,023 bytes, which are not yet a line", router.client().say(b"a" * 1_023).all(), "")
    same("the answer to 1,023 bytes and a line feed", router.client().say(b"a" * 1_023 + b"\n").all(), "refused 52 NoSuchCommand\n")


@listed
def a_client_that_goes_away_is_let_go(case):
    """Before it has said anything, within a line, and behind one: at once, since the clock stands still."""
    router = alone(case, **environment(case.folder, "alone", clock="still"))
    for said in (b"", b"tab", b"routes\n"):
        router.client().say(said).close()
        answers(router, "table", OWN_TABLE)


@listed
def a_client_whose_socket_is_interrupted_is_answered(case):
    """One that is reset is let go, and disturbs nobody."""
    whole = f"{OWN_TABLE}ok\n"
    for call, error, told in (("recv", EINTR, whole), ("recv", EAGAIN, whole), ("send", EINTR, whole), ("send", EAGAIN, whole),
                              ("recv", ECONNRESET, ""), ("send", ECONNRESET, ""), ("send", EPIPE, "")):
        name = f"{call}{error}"
        router = alone(case, name, **environment(case.folder, name, fail=f"{call}:1:1:{error}"))
        same(f"the answer at {name}", router.client().say(b"table\n").all(), told)
        answers(router, "table", OWN_TABLE)


@listed
def a_client_that_cannot_be_let_in_is_let_in_later(case):
    """Whatever the system says of it: the router makes its turns and tries again."""
    for error in (EAGAIN, ECONNABORTED, EINTR, EIO, EMFILE):
        name = f"accept{error}"
        router = alone(case, name, **environment(case.folder, name, fail=f"accept:1:20:{error}"))
        answers(router, "table", OWN_TABLE)
        same(f"the first calls at {name}", {answer for _, _, answer in calls(case, name, "accept")[:20]}, {-1})


@listed
def a_router_that_is_left_alone_sees_who_connects(case):
    """After 64 turns it looks for no client of itself."""
    router = alone(case, "idle", **environment(case.folder, "idle"))
    until("left alone", lambda: len(calls(case, "idle", "accept")) == 64)
    time.sleep(1)
    same("how often it looked", len(calls(case, "idle", "accept")), 64)
    begun = time.monotonic()
    answers(router, "table", OWN_TABLE)
    passed = time.monotonic() - begun
    same(f"whether {passed} is less than a turn without a client", passed < 0.35, True)


@listed
def a_client_that_reads_slowly_gets_all(case):
    """In many parts, since its socket takes no more at once."""
    source, at = case.neighbor(), case.port()
    router = case.listening("long", interface(1, at, peer(2, source.port)), "-R", "long.log")
    feed(source, at, table("e", ROUTES))
    until("the whole table", lambda: router.log().count(" metric 2 ") == ROUTES)
    client = router.client().say(b"table\n")
    while client.more():
        time.sleep(0.05)
    same("the answer", client.text.decode(), case.run("table", "long.log").out + "ok\n")


@listed
def a_client_that_says_nothing_is_let_go_after_two_seconds(case):
    router = alone(case)
    begun = time.monotonic()
    same("what it got", router.client().all(), "")
    passed = time.monotonic() - begun
    same(f"whether {passed} is some two seconds", 1.9 < passed < 12, True)


@listed
def clients_that_say_or_read_nothing_keep_nobody_from_anything(case):
    """A table is fed to a router while one client says nothing, the next reads nothing of a long answer, and one goes away. Nothing of the
    table is lost, and the next client gets its answer whole."""
    source, at, half = case.neighbor(), case.port(), ROUTES // 2
    router = case.listening("busy", interface(1, at, peer(2, source.port)), "-R", "busy.log")
    feed(source, at, table("e", half))
    until("half a table", lambda: router.log().count(" metric 2 ") == half)
    mute, slow = router.client(), router.client().say(b"routes\n")
    router.client().say(b"routes\n").close()
    feed(source, at, table("f", half))
    until("the whole table", lambda: router.log().count(" metric 2 ") == 2 * half)
    same("what the mute one got", mute.all(), "")
    time.sleep(6)
    same("whether the slow one got all", slow.all().endswith("ok\n"), False)
    same("the table", router.ctl("table").out, case.run("table", "busy.log").out)
    routes = router.ctl("routes").out.splitlines()
    same("the number of routes", len([line for line in routes if " metric 2 " in line and " from fe80::2 live " in line]), 2 * half)


if __name__ == "__main__":
    main()
