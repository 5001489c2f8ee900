#!/usr/bin/env bash
# Compiles a program from the sources as they stand. Nothing is proved: a check at run time stands in the place of each proof.
#
#     tools/unproved.sh FOLDER PROGRAM [LEVEL]
#
# FOLDER is that of a crate, as crates/ripngd_program; LEVEL is clang's, -O1 if none is named; -O0 is sooner there and far slower.
#
# What a check at run time refuses ends the program by a signal. In a copy of the sources the version is marked as unproved, so
# `--version` says so. tools/lent.sh says how it is done. The exit status is 3 where this kit does not lend its calls to this.
set -eu

crate=$(realpath "${1:?the folder of a crate that is a program}")
program=$(realpath -m "${2:?where the program goes}")
level=${3:--O1}
root=$(realpath "$crate/../..")
. "$(dirname "$0")/lent.sh"

# `mark_unproved FILE`: puts the word at the end of the version in that file, or fails where it has no such constant.
mark_unproved() {
    sed -i 's/^\(pub const VERSION: &str = "[^"]*\)";$/\1 unproved";/' "$1"
    if [ "$(grep -c '^pub const VERSION: &str = "[^"]* unproved";$' "$1")" != 1 ]; then
        echo "${1#"$folder/sources/"} has no constant VERSION in the form that tools/unproved.sh knows, so the program could not say that it is not proved" >&2
        return 2
    fi
}

kit=$(kit_folder) || exit
folder=$(mktemp -d)
trap 'rm -rf "$folder"' EXIT
lend "$kit" "$folder"
copy_sources "$root" "$folder/sources"
mark_unproved "$folder/sources/crates/ripngd_command_line/src/help.rt" || exit
compile_unproved "$folder" "$(basename "$crate")" || exit

# The kit's own words, without the address sanitizer; then the kit's own linker makes a program.
mapfile -t words < <(sed -e '/^-fsanitize=address$/d' -e "s/^-O0$/$level/" "$folder/words")
cd "$folder"
"$kit/toolchain/bin/clang" "${words[@]}"
mkdir -p "$(dirname "$program")"
rm -f "$program.proved"
"$kit/bin/rattle-link" --target x86_64-unknown-linux-gnu --toolchain "$kit/toolchain" -o "$program" "$folder/module.o" \
    "$kit/c/libos_c.a" "$kit/c/liblibc_c.a" > /dev/null
