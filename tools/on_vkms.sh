#!/bin/sh
# Runs scripts by on_kernel in a virtual machine with the distribution's kernel, on two cards: vkms, which has one CRTC, and virtio-gpu,
# which has two. Neither root nor KVM is needed.
#
# usage: tools/on_vkms.sh FOLDER [--driver DRIVER] [--crc | --report] SCRIPT..
#        tools/on_vkms.sh FOLDER --describe
#
# DRIVER is vkms or virtio_gpu: the scripts run on that card alone.
# With --report a report is printed, and beside each SCRIPT stands SCRIPT.expected, the report that on_kernel holds it beside.
# FOLDER keeps what the first run fetches and builds. For each card and script there is a line `== SCRIPT DRIVER`, what on_kernel
# prints, and a line `== status N`. Where the machine does not come to its end, the status is 1.
set -eu
[ $# -ge 2 ] || { sed -n '2,11s/^# \{0,1\}//p' "$0" >&2; exit 2; }
top=$(cd "$(dirname "$0")/.." && pwd)
mkdir -p "$1"
folder=$(cd "$1" && pwd)
shift
driver=
if [ "$1" = --driver ]; then
    driver=${2-}
    shift 2
fi
option=
case ${1-} in
    --crc | --report | --describe) option=$1 && shift ;;
esac
. "$top/tools/vkms/machine.sh"
find_kernel

# The program is built anew where its sources have changed.
program=$folder/on_kernel/on_kernel_static
if [ ! -x "$program" ] || [ -n "$(find "$top/tools/on_kernel" -name '*.[ch]' -newer "$program")" ]; then
    "$top/checks/on_kernel.sh" "$folder/on_kernel" >&2
    [ -x "$program" ] || install_first libdrm-dev
fi
make_disk
mkdir "$disk/scripts"
for script; do
    cp "$script" "$disk/scripts"
    [ "$option" != --report ] || gzip -1 <"$script.expected" >"$disk/scripts/${script##*/}.expected"
done
cp "$program" "$disk/bin/on_kernel"
cp "$top/tools/vkms/run_scripts" "$disk/run"
echo "$option" >"$disk/option"
echo "$driver" >"$disk/driver"
boot 512
