#!/usr/bin/env bash
# Makes docs/lab.html, the laboratory in one file.
#
#     page/build.sh            with a module of the proved library lab_page, which is proved first; what the kit has kept is not proved again
#     page/build.sh --try      with a module of the sources as they stand, unproved
#     page/build.sh --check    says what is not as the sources have it, and the exit status is 0 where all is so
#
# The file notes the sums of what it was made of, and which kit and which `wasm-opt` made it. A module that the file has already is taken
# where its sources are the same. page/wasm.sh makes the module, page/assemble.py the page.
set -eu

cd "$(dirname "$0")/.."
file=docs/lab.html
room=$(mktemp -d)
trap 'rm -rf "$room"' EXIT

noted() { page/assemble.py fact "$1" "$file"; }
kit() { rt version 2> /dev/null || echo none; }
wasm_opt() { wasm-opt --version 2> /dev/null | sed 's/.* //' || echo none; }

# Whether the file has a module of these sources, made by this kit and this `wasm-opt`, and proved, where that is asked.
has_module() {
    [ -s "$file" ] && [ "$(noted code)" = "$(page/assemble.py sum code)" ] && [ "$(noted kit)" = "$(kit)" ] &&
        [ "$(noted wasm-opt)" = "$(wasm_opt)" ] && [[ $1 = any || $(noted proof) = "$1" ]]
}

# `put_together PROOF KIT WASM_OPT`: the page around the module in `$room`.
put_together() {
    page/assemble.py page "$room/lab.wasm" "$2" "$3" "$1" > "$room/lab.html"
    cp "$room/lab.html" "$file"
}

make_proved() {
    if has_module proved; then
        page/assemble.py module "$file" > "$room/lab.wasm"
    else
        tools/prove.sh --libraries lab_page "$room/proved"
        page/wasm.sh "$room/proved" "$room/lab.wasm"
    fi
    put_together proved "$(kit)" "$(wasm_opt)"
}

make_unproved() {
    local proof=unproved
    if has_module any; then
        proof=$(noted proof)
        page/assemble.py module "$file" > "$room/lab.wasm"
    else
        page/wasm.sh --try "$room/lab.wasm"
    fi
    put_together "$proof" "$(kit)" "$(wasm_opt)"
}

# The page around the module that the file has is compared, and the module where its libraries are here, as `rt ci` leaves them.
check() {
    local failed=0
    page/assemble.py module "$file" > "$room/lab.wasm"
    page/assemble.py page "$file" "$(noted kit)" "$(noted wasm-opt)" "$(noted proof)" > "$room/lab.html"
    cmp -s "$room/lab.html" "$file" || { echo "$file is not that of the sources: page/build.sh makes it again"; failed=1; }
    [ "$(noted code)" = "$(page/assemble.py sum code)" ] || { echo "the module of $file is not that of the sources"; failed=1; }
    [ "$(noted proof)" = proved ] || { echo "the module of $file is not made of proved libraries"; failed=1; }
    if [ "$failed" = 0 ]; then check_module || failed=1; fi
    return "$failed"
}

check_module() {
    local status=0
    if [ "$(noted kit)" != "$(kit)" ] || [ "$(noted wasm-opt)" != "$(wasm_opt)" ]; then
        echo "skipped: another kit or another wasm-opt than those of $file is here, so its module is not made again"
    elif [ ! -d crates/ripng_trace/out/rlib ]; then
        echo "skipped: the libraries are not here, so the module of $file is not made again"
    else
        page/wasm.sh . "$room/again.wasm" > "$room/said" 2>&1 || status=$?
        if [ "$status" = 3 ]; then
            cat "$room/said"
            echo "skipped: the kit does not lend its calls, so the module of $file is not made again"
        elif [ "$status" != 0 ] || ! cmp "$room/lab.wasm" "$room/again.wasm"; then
            cat "$room/said"
            echo "the module of $file is not what its libraries give"
            return 1
        fi
    fi
}

case ${1:-} in
    '') make_proved ;;
    --try) make_unproved ;;
    --check) check ;;
    *) sed -n '2,/^set/{/^#/s/^# \?//p}' "$0" >&2; exit 2 ;;
esac
