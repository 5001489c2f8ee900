#!/usr/bin/env bash
# The router on real links by its companion, beside BIRD and FRR, in name spaces of the system: what only a kernel can show.
#
#     tests/links/links.sh [PROGRAM [CASE..]]        the program is bin/ripngd if none is named
#
# A line for each case, `ok NAME` or `FAILED NAME: why`, and last `N passed, M failed`. The exit status is 0 exactly where M is 0.
# Needs root, name spaces of the network, iproute2, Python 3.11, BIRD 2 and FRR (Debian's packages iproute2, bird2 and frr): where one
# is missing a line `skipped: ..` says so, and the parts of the companion alone are tried (tests/links/parts.py), which need neither root
# nor a program. The cases run side by side, and take some three minutes. One more, `ten_minutes`, is played only where it is named: a
# ring under loss whose routers and companions die and are started again.
set -u

root=$(realpath "$(dirname "$0")/../..")
program=$(realpath "${1:-$root/bin/ripngd}")
[ $# -eq 0 ] || shift

# What is missing, or nothing.
lacks() {
    [ "$(id -u)" = 0 ] || echo "no root"
    local name
    for name in ip bird birdc vtysh python3 pgrep setpriv dpkg-deb; do
        command -v "$name" > /dev/null || echo "no $name"
    done
    [ -x /usr/lib/frr/ripngd ] || echo "no ripngd of FRR"
    python3 -c 'import tomllib' 2> /dev/null || echo "no Python 3.11"
    unshare -n ip link add end0 type veth peer name end1 2> /dev/null || echo "no name space with virtual interfaces"
}

lacking=$(lacks | sed -e 's/^/skipped: there is /' -e 's/$/, so the router is not tried on real links/')
if [ -n "$lacking" ]; then
    echo "$lacking"
    exec "$root/tests/links/parts.py"
fi
exec python3 "$root/tests/links/cases.py" "$program" "$@"
