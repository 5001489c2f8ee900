# What the Rattle kit compiles of the sources as they stand, without a proof. Sourced by tools/unproved.sh and page/wasm.sh.
#
# `rt try` of the kit makes a program with a check at run time in the place of each proof, runs it once and throws it away. Here it calls
# a clang that keeps the code that it is given.

# Prints the kit's folder.
kit_folder() {
    if ! command -v rt > /dev/null; then
        echo "the Rattle kit is not on this machine (there is no rt): README.md says what it is" >&2
        return 2
    fi
    dirname "$(rt doc)"
}

# `copy_sources ROOT FOLDER`: the crates of a repository, without what was built and without the edits that must fail.
copy_sources() {
    mkdir "$2"
    cp "$1/crates.txt" "$1/HANDLES" "$2"
    (cd "$1" && find crates -name out -prune -o -name must-fail -prune -o -type f -print0 | xargs -0 cp --parents -t "$2")
}

# `lend KIT FOLDER`: the kit in FOLDER/kit, seen through links, with no prover, and with a clang that leaves a program's code as
# FOLDER/module.bc, and the words that it is called with as FOLDER/words.
lend() {
    local kit=$1 folder=$2
    mkdir -p "$folder/kit/bin" "$folder/kit/toolchain/bin"
    ln -s "$kit"/* "$folder/kit" 2> /dev/null || true
    ln -s "$kit"/bin/* "$folder/kit/bin"
    ln -s "$kit/toolchain/lib" "$folder/kit/toolchain"
    ln -s "$kit"/toolchain/bin/* "$folder/kit/toolchain/bin"
    rm "$folder"/kit/bin/{rt,rtlib.py,rattle} "$folder/kit/toolchain/bin/clang"
    cp "$kit"/bin/{rt,rtlib.py} "$folder/kit/bin"
    printf '#!/bin/sh\nexit 0\n' > "$folder/kit/bin/rattle"
    cat > "$folder/kit/toolchain/bin/clang" << CLANG
#!/usr/bin/env bash
case " \$* " in
    *' -fsanitize=address '*)
        cp module.bc "$folder/module.bc" && printf '%s\n' "\$@" > "$folder/words"
        exit 1 ;;
esac
exec -a "\$0" "$kit/toolchain/bin/clang" "\$@"
CLANG
    chmod +x "$folder/kit/bin/rattle" "$folder/kit/toolchain/bin/clang"
}

# `compile_unproved FOLDER CRATE`: the code of a program below FOLDER/sources/crates, by the kit that is lent there. The status is 3
# where the kit does not lend its calls to this.
compile_unproved() {
    local folder=$1
    (cd "$folder/sources/crates/$2" && "$folder/kit/bin/rt" try --steps 1 -- --version < /dev/null > "$folder/said" 2>&1) || true
    if [ ! -s "$folder/module.bc" ]; then
        cat "$folder/said" >&2
        echo "this kit compiles nothing without its proof in this way, or the sources have a fault" >&2
        return 3
    fi
}
