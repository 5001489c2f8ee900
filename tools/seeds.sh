#!/usr/bin/env bash
# A sweep of a script over seeds in shares, side by side: what `ripngd lab --seeds A..B SCRIPT` writes, in the same order, sooner.
#
#     tools/seeds.sh [--jobs N] [--program PROGRAM] A..B SCRIPT
#
# N shares are run at a time, as many as there are processors if it is not named, each by a program of its own. PROGRAM is bin/ripngd here, or
# else the installed one, if it is not named. The exit status is the greatest of them: 1 if a line of a run is refused or not met.
set -u

die() {
    echo "seeds.sh: $1" >&2
    exit 2
}

jobs=$(nproc)
program=$(dirname "$0")/../bin/ripngd
[ -x "$program" ] || program=ripngd
while [[ ${1:-} == --* ]]; do
    case $1 in
        --jobs) jobs=${2:-} ;;
        --program) program=${2:-} ;;
        *) die "$1 is no option" ;;
    esac
    shift 2 || die "an option has no value"
done
[ $# = 2 ] || die "tools/seeds.sh [--jobs N] [--program PROGRAM] A..B SCRIPT"
[[ $jobs =~ ^[1-9][0-9]{0,3}$ ]] || die "$jobs is no number of jobs"
[[ $1 =~ ^([0-9]{1,14})\.\.([0-9]{1,14})$ ]] || die "$1 is no range of seeds"
first=$((10#${BASH_REMATCH[1]}))
last=$((10#${BASH_REMATCH[2]}))
[ "$first" -le "$last" ] || die "$1 is no range of seeds: the second is less"
script=$2
[ "$script" != /dev/stdin ] || die "each share reads SCRIPT, so it is a file"

folder=$(mktemp -d)
trap 'rm -rf "$folder"' EXIT

# `share N`: runs the Nth share, from 0, of as many as there are jobs; it may be empty.
share() {
    local count=$((last - first + 1))
    local from=$((first + count * $1 / jobs)) to=$((first + count * ($1 + 1) / jobs - 1))
    [ "$from" -le "$to" ] || return 0
    "$program" lab --seeds "$from..$to" "$script" > "$folder/$1.out" 2> "$folder/$1.err"
}

running=()
for ((number = 0; number < jobs; number++)); do
    share "$number" &
    running+=($!)
done
status=0
for ((number = 0; number < jobs; number++)); do
    wait "${running[number]}"
    end=$?
    [ "$end" -le "$status" ] || status=$end
done

# The names of the columns stand there once.
begin=1
for ((number = 0; number < jobs; number++)); do
    [ -e "$folder/$number.out" ] || continue
    tail -n "+$begin" "$folder/$number.out"
    begin=2
    cat "$folder/$number.err" >&2
done
exit "$status"
