#!/bin/bash
# Makes a WebAssembly module of a proved static library.
#
#     web/to_wasm.sh CRATE_FOLDER MODULE EXPORT..      RT_KIT: the toolchain's folder, if not that of the command rt
#                                                      STACK: the bytes of the module's stack, 8 MiB if not told
#
# The toolchain's own target wasm64 has no heap that a library may take memory from. So the library is built for x86-64, as it is
# for C, and the one LLVM module that rattle hands to clang is kept: it is compiled once more, for wasm64, with heap.c and mem.c
# where a C library would be. To keep it, a stand-in for clang runs in a folder of links to the toolchain, which is not changed.
# None of this is proved: that the module does what the library does is seen from its reports alone (web/test.py).
set -euo pipefail
here=$(dirname "$(realpath "$0")")
RT_KIT=${RT_KIT:-$(dirname "$(dirname "$(realpath "$(command -v rt)")")")}
export RT_KIT
[ $# -ge 3 ] || { sed -n '2,5s/^# \{0,1\}//p' "$0" >&2; exit 2; }
crate=$(realpath "$1")
module=$(realpath -m "$2")
shift 2
work=$(mktemp -d)
trap 'rm -r "$work"' EXIT
clang=$RT_KIT/toolchain/bin/clang
target=(--target=wasm64-unknown-unknown -mcpu=lime1 --no-default-config -ffunction-sections -fdata-sections)

# A toolchain whose clang keeps the module that it compiles.
make_stand_in() {
    mkdir -p "$work/toolchain/bin"
    ln -s "$RT_KIT/toolchain/lib" "$work/toolchain/lib"
    for file in "$RT_KIT"/toolchain/bin/*; do ln -s "$file" "$work/toolchain/bin"; done
    rm "$work/toolchain/bin/clang"
    cat >"$work/toolchain/bin/clang" <<END
#!/bin/bash
for word in "\$@"; do [ "\$word" != module.bc ] || cp module.bc "$work/module.bc"; done
exec "$clang" "\$@"
END
    chmod +x "$work/toolchain/bin/clang"
}

# Proves and builds the library by the stand-in.
build_library() {
    "$here/../tools/archive.sh" "$crate" "$work/library.a" "$work/toolchain"
    [ -f "$work/module.bc" ] || { echo "to_wasm.sh: the build made no module.bc" >&2; exit 1; }
}

# Writes the kept module as text for the other target, which has pointers of the same size. Code for x86-64 alone has no other.
retarget() {
    "$clang" -S -emit-llvm -Xclang -disable-llvm-passes -x ir "$work/module.bc" -o "$work/module.ll"
    if grep -nE 'llvm\.x86| asm ' "$work/module.ll" >&2; then
        echo "to_wasm.sh: these lines are for x86-64 alone" >&2
        exit 1
    fi
    local layout="e-m:e-p:64:64-p10:8:8-p20:8:8-i64:64-i128:128-n32:64-S128-ni:1:10:20"
    sed -i -E "$work/module.ll" \
        -e "s/^target datalayout = .*/target datalayout = \"$layout\"/" \
        -e 's/^target triple = .*/target triple = "wasm64-unknown-unknown"/' \
        -e '/^attributes #/s/"(probe-stack|stack-probe-size|target-cpu|target-features|tune-cpu)"="[^"]*"//g'
}

compile() {
    local wide=(-mllvm -expand-div-rem-bits=64 -mllvm -expand-fp-convert-bits=64)
    "$clang" "${target[@]}" "${wide[@]}" -O3 -c -x ir "$work/module.ll" -o "$work/module.o"
    for part in heap mem; do
        "$clang" "${target[@]}" -O2 -std=c11 -ffreestanding -fno-builtin -nostdinc -mbulk-memory -c "$here/$part.c" -o "$work/$part.o"
    done
}

# The stack lies below all else, so that it traps where it is too small.
link() {
    local exports=("${@/#/--export=}")
    "$RT_KIT/toolchain/bin/ld.lld" -flavor wasm -mwasm64 --no-entry --stack-first -z "stack-size=${STACK:-8388608}" \
        "${exports[@]}" --gc-sections --strip-all -o "$module" "$work"/{module,heap,mem}.o
}

make_stand_in
build_library
retarget
compile
link "$@"
echo "$module: $(stat -c %s "$module") bytes, $(gzip -9c "$module" | wc -c) packed"
