#!/bin/sh
# Compiles tools/on_kernel with all warnings as errors, and once more as a static program, and runs it with a stand-in for a card
# (checks/on_kernel/stand_in.c): what it says of the card, where calls that overlap stand in the journal, and that a history in
# which clients wait with no event to come is drained. Says so and does nothing where a C compiler, libdrm's headers or its
# library are missing; the stand-in needs the headers alone.
#
# usage: checks/on_kernel.sh [FOLDER]      FOLDER: where the programs are left (on_kernel, on_kernel_static, on_stand_in)
set -eu
top=$(cd "$(dirname "$0")/.." && pwd)
here=$top/checks/on_kernel
. "$top/checks/compiling.sh"
find_compiler on_kernel
find_libdrm on_kernel
folder=${1-$(mktemp -d)}
[ $# -eq 1 ] || trap 'rm -rf "$folder"' EXIT
mkdir -p "$folder"
# Flags are words.
# shellcheck disable=SC2086
build() {
    name=$1
    shift
    if can_link "$folder" "$@"; then
        "$compiler" $flags "$@" "$top"/tools/on_kernel/*.c -o "$folder/$name" -ldrm -lm -lpthread
        echo "$name: compiled"
    else
        "$compiler" $flags -fsyntax-only "$top"/tools/on_kernel/*.c
        echo "$name: not linked, there is no such library of libdrm; the source compiles"
    fi
}
build on_kernel
build on_kernel_static -static

# The stand-in has libdrm's calls, and these of the system.
wrapped=-Wl,--wrap=open,--wrap=access,--wrap=mmap,--wrap=munmap,--wrap=ioctl,--wrap=read
# shellcheck disable=SC2086
"$compiler" $flags "$top"/tools/on_kernel/*.c "$here/stand_in.c" "$wrapped" -o "$folder/on_stand_in" -lpthread
on_stand_in() { "$folder/on_stand_in" stand-in "$@"; }
on_stand_in --describe | cmp - "$here/stand_in.card"
echo "on_stand_in --describe: as stand_in.card"
# How many calls have come back when a reply is given is left to the threads, so each place becomes 0; their order is not.
on_stand_in <"$here/overlapping.kms" | sed 's/^\(R [0-9]* [0-9]*\) [0-9]*/\1 0/' | cmp - "$here/overlapping.report"
echo "on_stand_in < overlapping.kms: as overlapping.report"
for script in "$top/examples/meeting.kms" "$top/checks/tools/stand_in_7.kms"; do
    on_stand_in <"$script" | grep '^D drained$' >/dev/null
    echo "on_stand_in < ${script##*/}: drained"
done
