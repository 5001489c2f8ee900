#!/usr/bin/env bash
# Proves a program and builds it, by `rt ci` of the Rattle kit: the kit alone says what is proved.
#
#     tools/prove.sh [CRATE [PROGRAM]]             ripngd_program and bin/ripngd if none is named
#     tools/prove.sh --libraries CRATE FOLDER      a library: it, and those below it, stay in the new folder FOLDER with what `rt ci` made of them
#     tools/prove.sh --above CRATE                 all that stand on a crate, and what those need: nothing stays
#
# `rt ci` runs over a copy of these crates, without the edits that must fail. The exit status is 0 exactly where all is proved. Beside a
# program stands its mark then, PROGRAM.proved, of which tools/proved.py says more.
set -eu -o pipefail

cd "$(dirname "$0")/.."
way=below
program=
room=$(mktemp -d)
trap 'kill $(jobs -p) 2> /dev/null || true; rm -rf "$room"' EXIT
folder=$room/all
if [ "${1:-}" = --libraries ]; then
    crate=$2
    folder=$(realpath -m "$3")
elif [ "${1:-}" = --above ]; then
    way=around
    crate=$2
else
    crate=${1:-ripngd_program}
    program=$(realpath -m "${2:-bin/ripngd}")
fi

# `copy FROM FOLDER WAY CRATE`: leaves these crates in a new folder, as they stand below FROM.
copy() {
    mkdir "$2" "$2/crates"
    cp "$1/HANDLES" "$2"
    for name in $(tools/crates.py "$3" "$4"); do
        grep -E "^$name( staticlib)?:" "$1/crates.txt" >> "$2/crates.txt"
        mkdir "$2/crates/$name"
        find "$1/crates/$name" -mindepth 1 -maxdepth 1 ! -name out ! -name must-fail -exec cp -r -t "$2/crates/$name" {} +
    done
    git -C "$2" init -q
}

# `judge FOLDER LOG [CRATE]`: runs `rt ci` there, and adds what it says to a log.
judge() {
    (cd "$1" && rt ci ${3:+"$3"}) 2>&1 | tee -a "$2"
}

logs=()
copy . "$folder" "$way" "$crate"
if [ "$crate" = ripngd_program ]; then
    # The crates up to the trace stand one on another and take longest, so a run of their own gives each of them all processors. Once
    # the router's core is proved, the daemon's are proved beside them by what these leave free. The kit keeps all for the last run.
    judge "$folder" "$room/first" router_core || true
    copy "$folder" "$room/daemon" below ripngd_daemon
    (cd "$room/daemon" && exec nice -n 19 rt ci > "$room/beside" 2>&1) &
    judge "$folder" "$room/first" ripng_trace || true
    wait
    logs=("$room/first" "$room/beside")
fi
judge "$folder" "$room/last" || { echo "$crate is not proved" >&2; exit 1; }
if [ "$program" ]; then
    made=$folder/crates/$crate/out/$crate
    tools/proved.py write "$crate" "$made" "$folder" "${logs[@]}" "$room/last"
    mkdir -p "$(dirname "$program")"
    rm -f "$program.proved"
    cp "$made" "$program"
    cp "$made.proved" "$program.proved"
fi
