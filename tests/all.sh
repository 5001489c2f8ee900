#!/usr/bin/env bash
# All tests of a built program, proved or not.
#
#     tests/all.sh [PROGRAM [ROWS]]        bin/ripngd, and bin/test_rows of crates/test_rows, if none is named
#
# First come the suites in which moments count, side by side, since they mostly wait. Behind them the others fill the processors, as many
# at once as there are. Each suite prints what failed in it and what it had to skip; its seconds stand behind its name. What was skipped
# stands in the line before the last; the last is `N passed, M failed`. The exit status is 0 exactly where M is 0.
set -u

program=$(realpath "${1:-bin/ripngd}")
rows=$(realpath "${2:-bin/test_rows}")
cd "$(dirname "$0")/.." || exit 1
folder=$(mktemp -d)
trap 'rm -rf "$folder"' EXIT

# What stands behind a colon is given to the suite, too. Only that of links is so long that the others do not wait for it.
links=links/links.sh
moments="daemon/asking.py daemon/sending.py daemon/neighbors.py daemon/control.py daemon/clients.py daemon/sockets.py daemon/inherited.py
daemon/watching.py premises/premises.py bench/bench.py"
# The longest first.
others="repository/marked.py page/page.py:chromium page/page.py:firefox page/page.py:modules command/rows.py growth/growth.py
growth/growth_of_calls.py command/cases.py page/lab_file.py page/fates.py command/mutated.py command/hints.py lab/scripts.py
repository/pages.py lab/paths.py captures/capture.py lab/topologies.py lab/numbers.py lab/shares.py lab/large.py repository/gate.py"

# `arguments SUITE`: which of the two programs a suite is given, and its word.
arguments() {
    case $1 in
        */rows.py | */growth_of_calls.py) echo "$rows" ;;
        *:*) echo "$program" "${1#*:}" ;;
        *) echo "$program" ;;
    esac
}

# `run SUITE`: leaves what it said, and how many seconds it took.
run() {
    local begun=$SECONDS words
    mkdir -p "$folder/${1%/*}"
    read -ra words <<< "$(arguments "$1")"
    "tests/${1%:*}" "${words[@]}" > "$folder/$1" 2>&1
    echo $((SECONDS - begun)) > "$folder/$1.seconds"
}

run $links &
longest=$!
first=()
for suite in $moments; do
    run "$suite" &
    first+=($!)
done
wait "${first[@]}"
for suite in $others; do
    while [ "$(jobs -rp | grep -cvx $longest)" -ge "$(nproc)" ]; do
        wait -n
    done
    run "$suite" &
done
wait

passed=0
failed=0
suites="$links $moments $others"
for suite in $suites; do
    echo "== $suite, $(cat "$folder/$suite.seconds") s"
    grep -v '^ok ' "$folder/$suite"
    last=$(tail -n 1 "$folder/$suite")
    if [[ $last =~ ^([0-9]+)\ passed,\ ([0-9]+)\ failed$ ]]; then
        passed=$((passed + BASH_REMATCH[1]))
        failed=$((failed + BASH_REMATCH[2]))
    else
        echo "FAILED $suite: it did not come to its end"
        failed=$((failed + 1))
    fi
done
skipped=$(cd "$folder" && grep -h '^skipped: ' $suites | sed 's/^skipped: //' | paste -sd ';')
echo "skipped: ${skipped:-nothing}"
echo "$passed passed, $failed failed"
[ "$failed" = 0 ] && [ "$passed" != 0 ]
