#!/usr/bin/env python3
"""The cases of tests/links/links.sh: `cases.py PROGRAM [CASE..]`. They run side by side, each in name spaces of its own."""

import functools
import os
import pathlib
import subprocess
import sys

sys.dont_write_bytecode = True
sys.path.append(str(pathlib.Path(__file__).resolve().parents[1] / "support"))
import addresses
import changes
import daily
import edges
import faults
import lists
import networks
import package
import parts
import reloads
import service
import sniffed
import soak
import starts
import trust
from spaces import Net
from suite import play, same


def the_parts(net, program):
    """The parts of the companion, as somebody without a privilege."""
    words = [*edges.AS_BY_A_UNIT[:4], sys.executable, parts.__file__]
    done = subprocess.run(words, capture_output=True, text=True, check=False)
    same("what fails", [line for line in done.stdout.splitlines() if not line.startswith("ok ")], [f"{len(parts.CASES)} passed, 0 failed"])


CASES = [networks.a_line, networks.a_ring, networks.a_lossy_cable, networks.many_routes, networks.two_hundred_links]
CASES += [edges.a_stranger, edges.many_neighbors, edges.a_flood, edges.a_killed_companion]
CASES += [edges.addresses_come_and_go, edges.links_come_and_go, edges.the_page, edges.no_privilege]
CASES += [addresses.one_address_on_two_links, addresses.a_neighbor_with_our_address, starts.a_slow_router]
CASES += [trust.one_address_everywhere, trust.a_query_from_afar, trust.a_device_made_anew, trust.old_datagrams]
CASES += [trust.wrong_sockets, trust.two_devices_on_one_link]
CASES += [faults.an_absent_device, faults.an_address_of_another, faults.no_forwarding, faults.a_table_without_routes]
CASES += [faults.an_ip_that_fails, faults.a_log_that_fails, faults.nothing_loops, faults.a_hung_router, faults.a_checked_table]
CASES += [faults.a_full_folder]
CASES += [starts.a_late_neighbor, starts.a_silent_neighbor, starts.a_late_address]
CASES += [changes.routes_stay, changes.what_is_not_told_goes, changes.routes_come_back, changes.a_link_goes_and_comes]
CASES += [changes.a_cut_is_gone_around, changes.a_cut_meanwhile, changes.a_last_update]
CASES += [reloads.a_reload, reloads.a_refused_reload, reloads.lists_are_reloaded, reloads.a_hand_over, reloads.links_by_pattern,
          reloads.a_reloaded_pattern]
CASES += [daily.the_log, daily.a_flood_of_lines, daily.monitoring, daily.routes_are_mended, daily.a_hung_router_is_replaced]
CASES += [daily.no_martians, daily.a_bridge_port, daily.a_renamed_device, daily.two_capabilities]
CASES += [lists.half_of_a_datagram, lists.what_is_told, lists.the_greatest_number, lists.static_routes_win, lists.a_default_route]
CASES += [service.a_refused_table, service.ends_by_signals, service.links_that_are_not_there, service.losses_are_counted]
CASES += [service.the_units, package.a_package, sniffed.captured_routers, the_parts]
# Played only where it is named.
LONG = [soak.ten_minutes]


def in_spaces(case, program, folder):
    """Plays a case, whose programs without a privilege come to its folder, too."""
    os.chmod(folder, 0o755)
    with Net(case.__name__, folder) as net:
        case(net, program)


def main():
    program, names = sys.argv[1], sys.argv[2:]
    chosen = [case for case in CASES + LONG if case.__name__ in names] if names else CASES
    cases = [(case.__name__, functools.partial(in_spaces, case, program)) for case in chosen]
    sys.exit(play(cases, len(cases), names_passed=True))


if __name__ == "__main__":
    main()
