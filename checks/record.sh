#!/bin/sh
# Compiles tools/record with all warnings as errors, and tries it with on_kernel and the stand-in for a card (checks/on_kernel/stand_in.c):
# what it writes of a session, and that a built program accepts that. Says so and does nothing where a C compiler or libdrm's headers are missing.
#
# usage: checks/record.sh PROGRAM [FOLDER]      FOLDER: where the library is left (librecord.so)
set -eu
case $# in 1 | 2) ;; *) sed -n '2,6s/^# \{0,1\}//p' "$0" >&2; exit 2 ;; esac
program=$1
top=$(cd "$(dirname "$0")/.." && pwd)
here=$top/checks/record
. "$top/checks/compiling.sh"
find_compiler record
find_libdrm record
folder=${2-$(mktemp -d)}
[ $# -eq 2 ] || trap 'rm -rf "$folder"' EXIT
mkdir -p "$folder"
on_kernel=$top/tools/on_kernel record=$top/tools/record

# Flags are words.
# shellcheck disable=SC2086
if can_link "$folder"; then
    "$compiler" $flags -fPIC -shared "$record"/*.c "$on_kernel/card.c" "$on_kernel/topology.c" -o "$folder/librecord.so" -ldrm -ldl -lpthread
    echo "librecord.so: compiled"
else
    "$compiler" $flags -fsyntax-only "$record"/*.c
    echo "librecord.so: not linked, there is no such library of libdrm; the source compiles"
fi

# Calls go to the stand-in, and those that are recorded to the recorder first.
wrapped=-Wl,--wrap=open,--wrap=access,--wrap=mmap,--wrap=ioctl
wrapped=$wrapped,--wrap=read,--wrap=drmIoctl,--wrap=drmModeAddFB2,--wrap=drmModeCreatePropertyBlob,--wrap=drmModeDestroyPropertyBlob
# shellcheck disable=SC2086
"$compiler" $flags "-I$record" "$on_kernel"/*.c "$record/calls.c" "$record/script.c" "$top/checks/on_kernel/stand_in.c" \
    "$here/on_stand_in.c" "$wrapped" -o "$folder/recorded" -lpthread
KMS_RECORD=$folder/script "$folder/recorded" stand-in <"$here/session.kms" >/dev/null 2>"$folder/notes"
cat "$folder/script" "$folder/notes" | cmp - "$here/session.recorded"
echo "session.kms: recorded as session.recorded"
"$program" one <"$folder/script" | grep '^D drained$' >/dev/null
echo "one < what was recorded: drained"
