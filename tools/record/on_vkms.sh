#!/bin/sh
# Records modetest on both cards of the virtual machine of tools/on_vkms.sh, and weston on vkms, and runs a built program on the scripts.
#
# usage: tools/record/on_vkms.sh FOLDER PROGRAM      FOLDER: as for on_vkms.sh; the scripts are left there, in `sessions`
#
# modetest shows a picture and turns all off. Of weston (with pixman, and weston-simple-shm as its client)
# ten seconds are recorded.
set -eu
[ $# -eq 2 ] || { sed -n '2,7s/^# \{0,1\}//p' "$0" >&2; exit 2; }
top=$(cd "$(dirname "$0")/../.." && pwd)
mkdir -p "$1"
folder=$(cd "$1" && pwd)
program=$2
. "$top/tools/vkms/machine.sh"

# with_libraries FILE..: puts programs and libraries into the disk, with all libraries that they need, where they lie here.
with_libraries() {
    { readlink -f "$@" && printf '%s\n' "$@" && ldd "$@" | grep -o '/[^ :]*\.so[^ :]*'; } | sort -u | (cd / && cpio -pdLm --quiet "$disk")
}

find_kernel
need modetest libdrm-tests weston weston
"$top/checks/record.sh" "$program" "$folder/record" >&2
[ -e "$folder/record/librecord.so" ] || install_first libdrm-dev
make_disk
libraries=/usr/lib/x86_64-linux-gnu
with_libraries /usr/bin/modetest /usr/bin/weston /usr/bin/weston-simple-shm "$libraries"/libweston-*/drm-backend.so \
    "$libraries/weston/fullscreen-shell.so"
mkdir -p "$disk/usr/share/X11/xkb" "$disk/tmp"
cp "$folder/record/librecord.so" "$disk"
cp "$top/tools/record/sessions" "$disk/run"
rm -rf "$folder/sessions"
mkdir "$folder/sessions"

# The machine prints each file behind a line with its name.
boot 768 | (cd "$folder/sessions" && awk '/^== / { file = $2; next } file { print > file }')
for script in "$folder/sessions"/*.kms; do
    name=$(basename "$script" .kms)
    "$program" one <"$script" >"$folder/sessions/$name.report"
    echo "$name: $(tail -n 1 "$folder/sessions/$name.report"), $(grep -c '^L' "$folder/sessions/$name.report") latches"
    cat "$folder/sessions/$name.notes"
done
