#!/usr/bin/env bash
# A neighbor to try ripngd-links with: BIRD in a name space of this machine, at the other end of a cable, `ripng0`.
#
#     companion/bird.sh [up|down]
#
# BIRD owns 2001:db8:b::/48. Needs root, iproute2 and BIRD 2 (packages of the system). SPACE=NAME names the name space.
set -eu

space=${SPACE:-ripngd-bird}
control=/run/$space.ctl

case ${1:-up} in
    up)
        ip netns add "$space"
        ip link add ripng0 type veth peer name ripng0 netns "$space"
        ip link set ripng0 up
        ip -n "$space" link set ripng0 up
        ip netns exec "$space" bird -c "$(dirname "$0")/bird.conf" -s "$control"
        ;;
    down)
        birdc -s "$control" down
        ip netns del "$space"
        ;;
    *)
        echo "companion/bird.sh [up|down]" >&2
        exit 2
        ;;
esac
