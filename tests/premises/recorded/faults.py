"""Faults that are planted in what routers did, each with the fields that it breaks. A fault takes an honest history and returns one in which
one thing is otherwise."""

import dataclasses
from collections import Counter

from datagrams import REQUEST
from recorded.calls import MS, Call, Datagram, Outgoing
from recorded.history import History, are_linked
from recorded.scenes import QUIET
from recorded.times import regular_ticks
from suite import Failed

GIVEN = {"GoOn.given", "GoOnAnyhow.given"}
FAULTS = {}


def breaks(*fields):
    """Puts a fault among all, with the fields that it breaks."""
    def listed(function):
        FAULTS[function.__name__] = function, set(fields)
        return function
    return listed


def cut(history, until):
    """What was done before a moment."""
    return history.changed(lambda run: dataclasses.replace(run, deeds=tuple(deed for deed in run.deeds if deed.at < until * MS)))


def edited(history, changes):
    """The history, where each of these deeds, by its identity, is another one or none."""
    def change(run):
        deeds = (changes.get(id(deed), deed) for deed in run.deeds)
        return dataclasses.replace(run, deeds=tuple(deed for deed in deeds if deed))
    return history.changed(change)


def found(history, wanted, after=0):
    """The first deed of that kind from a moment on, and its place."""
    return next((place, dated.deed) for place, dated in enumerate(history.deeds) if dated.at >= after and wanted(dated.deed))


def is_response(deed):
    """A router's Response came by it."""
    return deed.datagram and deed.datagram.bytes[0] == 2 and deed.datagram.source_port == 521


def triggered(history):
    """The first deed by which a Response came that is of no regular update, and unlike any other datagram."""
    regular, copies = regular_ticks(history), Counter(sent.bytes for sent in history.handed)
    for dated in history.deeds:
        sent = history.handed[dated.number] if dated.number is not None else None
        if sent and is_response(dated.deed) and sent.deed not in regular and copies[sent.bytes] == 1:
            return dated.deed
    raise Failed("no triggered update came")


def giving(deed, datagram):
    """The same deed, where the link gave another datagram."""
    call = Call(deed.router, deed.run, deed.calls[0].at, "Gave", datagram)
    return dataclasses.replace(deed, calls=(call, *deed.calls[1:]))


def regiven(history, **fields):
    """A datagram that a link gave is otherwise."""
    deed = triggered(history)
    return edited(history, {id(deed): giving(deed, dataclasses.replace(deed.datagram, **fields))})


def given_besides(history, router, datagram, after):
    """A link gives a router a datagram by a call that gave none."""
    place, deed = found(history, lambda deed: deed.router == router and deed.act == "Listen" and not deed.datagram, after)
    tick = next(dated.deed for dated in history.deeds[place:] if dated.deed.router == router and dated.deed.act == "Tick")
    return edited(history, {id(deed): dataclasses.replace(giving(deed, datagram), moments=tick.moments)})


def is_silent(deed):
    return deed.act == "Listen" and not deed.datagram


# Of links.

@breaks("IsCopyOf.source", *GIVEN)
def another_source_address(history):
    return regiven(history, source="fe80::99")


@breaks("IsCopyOf.bytes", *GIVEN)
def a_changed_byte(history):
    """A metric is another one."""
    bytes_given = triggered(history).datagram.bytes
    return regiven(history, bytes=bytes_given[:-1] + bytes([bytes_given[-1] ^ 4]))


@breaks("IsCopyOf.hops", *GIVEN)
def a_hop_limit_of_64_of_what_is_sent_to_one_alone(history):
    return regiven(history, hop_limit=64, to_group=False)


@breaks()
def a_hop_limit_of_64_of_what_is_sent_to_the_group(history):
    """It is refused, and so may be an outside host's."""
    return regiven(history, hop_limit=64)


@breaks()
def another_port(history):
    """Likewise."""
    return regiven(history, source_port=522)


@breaks("IsCopyOf.linked", *GIVEN)
def a_datagram_of_another_link(history):
    """What came at one interface came at the next one."""
    return regiven(history, iface=(triggered(history).datagram.iface + 1) % len(history.net[0].interfaces))


@breaks("IsOfTheLink.before", "GoOnAnyhow.given")
def a_datagram_before_it_was_handed_over(history):
    """The last update of the router that was stopped is given a minute before it."""
    _, deed = found(history, lambda deed: deed.act == "Shutdown")
    out = deed.handed[0]
    datagram, router = arriving(history, deed.router, out)
    return given_besides(history, router, datagram, deed.at // MS - 60_000)


def arriving(history, sender, out):
    """What was handed over as it comes to the other router of its link, and that router."""
    net = history.net
    router, iface = next((router, iface) for router, node in enumerate(net) for iface in range(len(node.interfaces))
                         if router != sender and are_linked(net, sender, out.iface, router, iface))
    return Datagram(iface, net[sender].interfaces[out.iface].address, 521, 255, True, out.bytes), router


@breaks("IsOfAStranger.unheard", *GIVEN)
def a_forged_response(history):
    return given_besides(history, 0, Datagram(0, "fe80::66", 521, 255, True, bytes([2, 1, 0, 0]) + b"\x20\x01" + bytes(16) + b"\x10\1"), 30_000)


@breaks("IsOfAStranger.known", *GIVEN)
def an_interface_that_is_not_there(history):
    return given_besides(history, 0, Datagram(9, "fe80::66", 2_000, 255, True, REQUEST), 30_000)


@breaks("AreOnTime.recent", "AreOnTime.in_order", "GoOnAnyhow.recent")
def a_datagram_of_a_minute_ago(history):
    """The last update of the router that was stopped comes once more."""
    _, deed = found(history, lambda deed: deed.act == "Shutdown")
    datagram, router = arriving(history, deed.router, deed.handed[0])
    return given_besides(history, router, datagram, QUIET + 20_000)


@breaks("AreOnTime.in_order")
def a_datagram_that_is_overtaken(history):
    """Two that are given one after the other, of one sender, are given the other way round."""
    _, first = found(history, is_response, 60)
    way = first.router, first.datagram.iface
    _, second = found(history, lambda deed: is_response(deed) and (deed.router, deed.datagram.iface) == way
                      and deed.datagram != first.datagram, 60)
    return edited(history, {id(first): giving(first, second.datagram), id(second): giving(second, first.datagram)})


@breaks("AreOnTime.updates")
def a_regular_update_that_is_lost(history):
    _, deed = found(history, lambda deed: is_response(deed) and not deed.handed, QUIET + 20_000)
    silent = Call(deed.router, deed.run, deed.calls[0].at, "Silent")
    return edited(history, {id(deed): dataclasses.replace(deed, moments=(), calls=(silent,))})


# Of runs.

@breaks("AreRunning.known")
def a_call_of_no_router(history):
    return History(history.net, history.runs, [*history.order, Call(len(history.net), 0, history.order[-1].at, "Silent")])


@breaks("AreRunning.calls")
def a_call_that_is_left_out(history):
    place = next(place for place, call in enumerate(history.order) if call.what == "Silent")
    return History(history.net, history.runs, history.order[:place] + history.order[place + 1:])


@breaks("AreRunning.in_turn")
def a_start_with_an_older_configuration(history):
    """The cost that a client had ordered is not in the file."""
    return history.changed(lambda run: dataclasses.replace(run, config=history.net[run.router]))


@breaks("Program.under_way")
def a_turn_without_its_recv(history):
    _, deed = found(history, is_silent, 30_000)
    return edited(history, {id(deed): None})


@breaks("GoOn.known", "GoOnAnyhow.known", "GoOnAnyhow.awake")
def a_deed_of_no_router(history):
    _, deed = found(history, is_silent, QUIET + 20_000)
    return edited(history, {id(deed): dataclasses.replace(deed, router=len(history.net))})


@breaks("GoOn.in_time", "GoOnAnyhow.in_time")
def a_deed_that_happens_before_what_was_done_before_it(history):
    _, deed = found(history, is_silent, QUIET + 20_000)
    return edited(history, {id(deed): dataclasses.replace(deed, at=deed.at - 1_000 * MS)})


# Of ticks, clocks and memory.

def ticks_from(history, router, after, count):
    """Ticks that hand nothing over, one after another."""
    own = [dated.deed for dated in history.deeds if dated.deed.router == router and dated.deed.act == "Tick" and dated.at >= after]
    at = next(at for at in range(len(own)) if not any(deed.handed for deed in own[at:at + count]))
    return own[at:at + count]


@breaks("GoOn.ticks", "Program.under_way")
def a_tick_that_is_missing(history):
    return edited(history, {id(deed): None for deed in ticks_from(history, 2, QUIET + 20_000, 1)})


@breaks("GoOn.ticks", "GoOnAnyhow.awake", "Program.under_way")
def three_ticks_that_are_missing(history):
    return edited(history, {id(deed): None for deed in ticks_from(history, 2, QUIET + 20_000, 3)})


def clocked(history, router, reading, after=0):
    """A router's clock reads otherwise from a moment on: what it would, and that moment by the true clock, give what it does."""
    return edited(history, {id(dated.deed): dataclasses.replace(dated.deed, moments=tuple(reading(now, dated.at) for now in dated.deed.moments))
                            for dated in history.deeds if dated.deed.router == router and dated.at >= after})


@breaks("KeepsTime.moments", "GoOnAnyhow.clocks", "GoOnAnyhow.since")
def a_clock_that_stands(history):
    return clocked(history, 2, lambda now, at: QUIET + 2_000, QUIET + 2_010)


@breaks("KeepsTime.before", "GoOnAnyhow.clocks", "GoOnAnyhow.since")
def a_clock_that_has_gone_back(history):
    return clocked(history, 2, lambda now, at: now - 2_000, QUIET)


@breaks("KeepsTime.moments")
def a_clock_that_drifts(history):
    """By a second in each hundred, ahead."""
    return clocked(history, 2, lambda now, at: now + (at - QUIET) // 100, QUIET)


def saying(history, line):
    return history.changed(lambda run: dataclasses.replace(run, said=f"{run.said}{line}\n"))


@breaks("GoOn.lossless")
def a_step_that_is_lost(history):
    return saying(history, "ripngd: lost sends 0, lost steps 1")


@breaks("GoOn.roomy")
def an_entry_that_is_skipped(history):
    return saying(history, "9 iface 0 from fe80::2:2 port 521 entry 0 noted 24 NoMemory")


@breaks("GoOn.plain")
def a_change_of_a_cost(history):
    """Right behind a tick."""
    _, tick = found(history, lambda deed: deed.act == "Tick" and not deed.handed, QUIET + 20_000)
    change = dataclasses.replace(tick, act="Reconfigure", calls=(), change=("cost", "0", "5"))

    def change_run(run):
        deeds = [one for deed in run.deeds for one in ([deed, change] if deed is tick else [deed])]
        return dataclasses.replace(run, deeds=tuple(deeds))
    return history.changed(change_run)


# Of questions.

def questions_of(history):
    """The first router that asks, and its first question: one deed for each link."""
    place, first = found(history, lambda deed: deed.act == "Ask")
    return [dated.deed for dated in history.deeds[place:] if dated.deed.router == first.router][:len(history.net[first.router].interfaces)]


def with_deeds(history, behind, deeds):
    """The history, where a router does this right behind a deed of its own."""
    def change(run):
        return dataclasses.replace(run, deeds=tuple(one for deed in run.deeds for one in ([deed, *deeds] if deed is behind else [deed])))
    return history.changed(change)


def asking(deed, count):
    """What a router does that asks right behind a deed, on so many links."""
    calls = [Call(deed.router, deed.run, deed.at, "Handed", outgoing=Outgoing(iface, (), REQUEST)) for iface in range(count)]
    return [dataclasses.replace(deed, act="Ask", calls=(call,), moments=deed.moments[-1:], change=(), on=iface) for iface, call in enumerate(calls)]


def asked_behind(history, deed):
    """The router of a deed asks right behind it."""
    return with_deeds(history, deed, asking(deed, len(history.net[deed.router].interfaces)))


@breaks("IsLife.asks", "HasDone.asks")
def a_question_without_a_loss(history):
    return asked_behind(history, ticks_from(history, 2, QUIET + 20_000, 1)[0])


@breaks("IsLife.asks", "HasDone.asks")
def a_question_within_a_second(history):
    """A route is lost again at once, and it asks for that at once."""
    *_, last = questions_of(history)
    tick = ticks_from(history, last.router, last.at // MS + 1, 1)[0]
    forwarded, unreachable = tick.sizes
    lossy = dataclasses.replace(tick, sizes=(forwarded - 1, unreachable + 1))
    return with_deeds(edited(history, {id(tick): lossy}), lossy, asking(lossy, len(history.net[last.router].interfaces)))


@breaks("HasDone.asks")
def a_question_for_what_was_given_up(history):
    """A client had it drop a prefix."""
    _, deed = found(history, lambda deed: deed.act == "Reconfigure" and deed.change[0] == "drop")
    return asked_behind(history, deed)


@breaks("AsksAll.told")
def a_question_of_a_quiet_router(history):
    router = questions_of(history)[0].router
    net = tuple(dataclasses.replace(node, quiet=True) if who == router else node for who, node in enumerate(history.net))
    runs = [[dataclasses.replace(run, config=dataclasses.replace(run.config, quiet=True), in_force=dataclasses.replace(run.in_force, quiet=True))
             if run.router == router else run for run in own] for own in history.runs]
    return History(net, runs)


@breaks("AsksAll.asks")
def a_question_on_all_links_but_the_first(history):
    """There it is refused something else."""
    first = questions_of(history)[0]
    return edited(history, {id(first): dataclasses.replace(first, act="Refuse", on=None)})
