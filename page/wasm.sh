#!/usr/bin/env bash
# Makes the page's module of WebAssembly from the crate lab_page.
#
#     page/wasm.sh FOLDER OUT     over the proved libraries that `rt ci` left below FOLDER/crates; lab_page is proved once more on the way
#     page/wasm.sh --try OUT      from the sources as they stand, unproved, with a check at run time in the place of each proof
#
# The kit compiles for x86-64. What it gives clang is code of LLVM, which is kept here and compiled for WebAssembly: it calls nothing but
# plain operations of LLVM and the three functions of the heap, which are in heap.c. The kit's target for WebAssembly has memories of
# 64 bits, and no C; `wasm-opt` makes a module with a memory of 32 bits, which each browser and node take. Needs the kit and
# `wasm-opt` (Debian's binaryen). The exit status is 3 where the kit does not lend its calls to this.
set -eu

here=$(realpath "$(dirname "$0")")
root=$(dirname "$here")
from=${1:?the folder with the libraries, or --try}
out=$(realpath -m "${2:?where the module goes}")
. "$root/tools/lent.sh"

kit=$(kit_folder) || exit
if ! command -v wasm-opt > /dev/null; then
    echo "there is no wasm-opt: it is in the package binaryen" >&2
    exit 2
fi
room=$(mktemp -d)
trap 'rm -rf "$room"' EXIT
clang=$kit/toolchain/bin/clang
name=lab_page

# The code of the library, over proved ones: a toolchain whose clang keeps what it is given.
proved_code() {
    local libraries
    mapfile -t libraries < <(printf -- '-L\ndependency=%s\n' "$from"/crates/*/out/rlib)
    mkdir "$room/toolchain"
    cp -as "$kit/toolchain/." "$room/toolchain/"
    rm "$room/toolchain/bin/clang"
    printf '#!/bin/sh\ncp module.bc %s/module.bc\nexec %s "$@"\n' "$room" "$clang" > "$room/toolchain/bin/clang"
    chmod +x "$room/toolchain/bin/clang"
    # The processor is named, so that no code is for a newer one alone.
    (cd "$from/crates/$name" && "$kit/bin/rattle" build --crate-name "$name" src/lib.rt \
        --extern std="$kit/rlibs/std.rlib" -L dependency="$kit/rlibs" "${libraries[@]}" $(uses) \
        --antt-project "$kit/rattle/logic/antt-project.json" --logic-built "$kit/logic_built" --jobs 1 --links "$name=" \
        --cpu x86-64 --crate-type staticlib --toolchain "$room/toolchain" --backend llvm -o "$room/x86_64.a") > "$room/said" 2>&1 || true
}

# The libraries of the repository that it names, as words of the compiler.
uses() {
    local library
    for library in $(sed -n "s/^$name staticlib://p" "$root/crates.txt"); do
        printf -- '--extern\n%s=%s\n' "$library" "$from/crates/$library/out/rlib/$library.rlib"
    done
}

# The same of a program that calls each function of the library once: the kit makes programs alone without their proofs.
unproved_code() {
    lend "$kit" "$room"
    copy_sources "$root" "$room/sources"
    sed -i "s/^$name staticlib:/$name:/" "$room/sources/crates.txt"
    mv "$room/sources/crates/$name/src/lib.rt" "$room/sources/crates/$name/src/main.rt"
    cat >> "$room/sources/crates/$name/src/main.rt" << 'MAIN'

fn main(rt: HostRuntime) -> std::process::ExitCode {
    let mut out: [u8; 64] = [0; 64];
    let mut written = 0;
    let traced = lab_page_trace(rt.alloc(), b"", &mut out, &mut written);
    let told = lab_page_fates(rt.alloc(), b"", b"::1", &mut out, &mut written);
    std::process::ExitCode::from((traced | told) as u8)
}
MAIN
    compile_unproved "$room" "$name"
}

# The layout and the triple are those that the kit writes for WebAssembly. What is for x86-64 alone goes, and so does a program's `main`.
# In a program, the function that a library exports has a name of the kit's own.
retarget() {
    local layout='e-m:e-p:64:64-p10:8:8-p20:8:8-i64:64-i128:128-n32:64-S128-ni:1:10:20'
    sed -e "s|^target datalayout = .*|target datalayout = \"$layout\"|" \
        -e 's|^target triple = .*|target triple = "wasm64-unknown-unknown"|' \
        -e '/^attributes /{s/ sanitize_address//; s/ "frame-pointer"="[a-z]*"//; s/ "probe-stack"="inline-asm"//; s/ "stack-probe-size"="[0-9]*"//
            s/ "target-cpu"="[^"]*"//; s/{ }/{ nounwind }/}' \
        -e '/^define i32 @main() /,/^}/d' \
        -e "$renamed" \
        -e "s/^define \(internal \)\?\(.*\)@\(${name}_[a-z_]*\)(\(.*\)) #0 {/define \2@\3(\4) #0 \"wasm-export-name\"=\"\3\" {/"
}

compile() {
    local flags='--target=wasm64-unknown-unknown -mcpu=lime1 -mllvm -expand-div-rem-bits=64 -mllvm -expand-fp-convert-bits=64
        -ffunction-sections -fdata-sections -mllvm -trap-unreachable -mllvm -disable-machine-licm -mllvm -disable-postra-machine-licm
        -mllvm -sink-common-insts=false --no-default-config -no-canonical-prefixes -Werror'
    "$clang" --target=x86_64-unknown-linux-gnu -x ir -S -emit-llvm -Xclang -disable-llvm-passes -o printed.ll module.bc
    if grep -q '@llvm\.x86\|asm ' printed.ll; then
        echo "there is code for x86-64 alone" >&2
        return 1
    fi
    retarget < printed.ll > retargeted.ll
    "$clang" $flags "$1" -x ir -c retargeted.ll -o code.o
    "$clang" $flags -O3 -Wall -fwrapv -ffreestanding -fno-builtin -nostdinc -c "$here/heap.c" -o heap.o
    "$kit/toolchain/bin/llvm-ar" rcsD --format=gnu "$name.a" code.o heap.o
    "$kit/bin/rattle-link" --target wasm64-unknown-unknown --toolchain "$kit/toolchain" -o linked.wasm "$name.a" 2> said ||
        { cat said >&2; return 1; }
    python3 "$here/lower.py" linked.wasm patched.wasm
    wasm-opt --enable-memory64 --enable-bulk-memory --enable-mutable-globals --enable-sign-ext --enable-nontrapping-float-to-int \
        --enable-multivalue --enable-extended-const --memory64-lowering -O2 patched.wasm -o lowered.wasm
}

if [ "$from" = --try ]; then
    unproved_code || exit
    level=-O1 renamed="s/@\"$name::\([a-z_]*::\)\?\(${name}_[a-z_]*\)\"/@\2/"
else
    from=$(realpath "$from")
    proved_code
    level=-O3 renamed=
fi
if [ ! -s "$room/module.bc" ]; then
    cat "$room/said" >&2
    echo "this kit gives no code of $name in this way, or the libraries below $from are not those of the sources" >&2
    exit 3
fi
(cd "$room" && compile "$level")
mkdir -p "$(dirname "$out")"
cp "$room/lowered.wasm" "$out"
