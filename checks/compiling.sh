#!/bin/sh
# What the checks share that compile C.

# Finds a C compiler. Where there is none, the check of this name says so, and ends.
find_compiler() {
    for compiler in cc gcc clang; do
        if command -v "$compiler" >/dev/null 2>&1; then return; fi
    done
    echo "$1: skipped, there is no C compiler"
    exit 0
}

# Finds libdrm's headers and sets `flags`, words for the compiler of the tools in C. Where there are none, the check of this name says so,
# and ends.
find_libdrm() {
    flags="-O2 -std=gnu11 -Wall -Wextra -Werror -I/usr/include/libdrm -I$top/tools/on_kernel"
    if ! printf '#include <xf86drm.h>\n#include <xf86drmMode.h>\n' | "$compiler" -I/usr/include/libdrm -E - >/dev/null 2>&1; then
        echo "$1: skipped, there are no headers of libdrm"
        exit 0
    fi
}

# can_link FOLDER WORD..: whether a program can be linked with libdrm, by these words.
can_link() {
    tried=$1/tried
    shift
    printf 'int main(void) { return 0; }\n' | "$compiler" "$@" -x c - -o "$tried" -ldrm -lm -lpthread 2>/dev/null && rm "$tried"
}

# kernel_bytes NAME HEADER WANT: compares the bytes that NAME.c of the folder $here prints, compiled with the kernel's own HEADER,
# with those that are wanted. Skipped where the header or a C compiler is missing.
kernel_bytes() {
    find_compiler "$1"
    for header in "drm/$2" "libdrm/$2"; do
        printf '#include <%s>\n' "$header" | "$compiler" -I/usr/include/libdrm -E - >/dev/null 2>&1 && break
        header=
    done
    if [ -z "$header" ]; then
        echo "$1: skipped, there is no $2"
        exit 0
    fi
    program=$(mktemp) || exit 1
    trap 'rm -f "$program"' EXIT
    "$compiler" -I/usr/include/libdrm "-DHEADER=<$header>" -o "$program" "$here/$1.c" || exit 1
    got=$("$program") || exit 1
    if [ "$got" != "$3" ]; then
        echo "$1: differs: $got"
        exit 1
    fi
    echo "$1: the same bytes"
}
