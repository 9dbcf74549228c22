# A virtual machine with the distribution's kernel and two cards, vkms and virtio-gpu, for scripts that source this. They set `top`, the
# top of the repository, and `folder`, where all that is fetched and built is left; `find_kernel` comes first, then `make_disk`, `boot`.

say() { echo "${0##*/}: $*" >&2; }

# Names packages that have what is missing, and ends.
install_first() {
    say "install first: $*"
    exit 2
}

# need COMMAND PACKAGE ..: the package of each command that is not there is to be installed first.
need() {
    missing=
    while [ $# -gt 0 ]; do
        command -v "$1" >/dev/null 2>&1 || missing="$missing $2"
        shift 2
    done
    # Packages are words.
    # shellcheck disable=SC2086
    [ -z "$missing" ] || install_first $missing
}

# Finds the newest kernel whose headers are there: its `headers`, its `release`, and the folder `kernel` for what is kept of it.
find_kernel() {
    need qemu-system-x86_64 qemu-system-x86 busybox busybox-static cpio cpio make make cc gcc xz xz-utils apt-get apt dpkg dpkg
    headers=$(find /usr/src -maxdepth 1 -name 'linux-headers-[0-9]*-amd64' | sort -V | tail -n 1)
    [ -n "$headers" ] || install_first linux-headers-amd64
    if ldd "$(command -v busybox)" >/dev/null 2>&1; then install_first busybox-static; fi
    release=${headers##*/linux-headers-}
    kernel=$folder/$release
}

# Fetches the kernel with its modules, and the sources of two that it lacks, once.
fetch_kernel() {
    [ -d "$kernel" ] && return
    say "fetching Linux $release"
    version=$(echo "$release" | cut -d . -f 1,2)
    mkdir -p "$kernel.part"
    (cd "$kernel.part" && apt-get -qq download "linux-image-$release" "linux-source-$version") >&2
    dpkg -x "$kernel.part/linux-image-$release"_*.deb "$kernel.part/image"
    dpkg --fsys-tarfile "$kernel.part/linux-source-$version"_*.deb | tar -xO "./usr/src/linux-source-$version.tar.xz" |
        tar -xJ -C "$kernel.part" --strip-components 1 "linux-source-$version/drivers/gpu/drm/vkms" "linux-source-$version/drivers/dma-buf"
    rm "$kernel.part"/*.deb
    mv "$kernel.part" "$kernel"
}

# module FOLDER WORD..: builds a module, once.
module() {
    module_folder=$1
    shift
    ls "$module_folder"/*.ko >/dev/null 2>&1 || make -s -C "$headers" "M=$module_folder" "$@" modules >&2
}

build_modules() {
    mkdir -p "$kernel/fences/include/trace"
    cp "$top"/tools/vkms/sw_sync/* "$kernel/fences"
    ln -sfn ../drivers "$kernel/fences/drivers"
    module "$kernel/fences"
    module "$kernel/drivers/gpu/drm/vkms" CONFIG_DRM_VKMS=m
}

# Makes `disk`, the folder of the RAM disk, with what each machine has. What the machine does is for the caller to put there, as `run`.
make_disk() {
    fetch_kernel
    build_modules
    disk=$folder/disk
    rm -rf "$disk"
    mkdir -p "$disk/bin" "$disk/proc" "$disk/sys" "$disk/dev" "$disk/lib/modules/$release"
    cp "$(command -v busybox)" "$disk/bin/busybox"
    cp "$top/tools/vkms/init" "$disk/init"
    drivers=$kernel/image/lib/modules/$release/kernel/drivers
    find "$drivers/gpu/drm" "$drivers/gpu/drm/virtio" "$drivers/virtio" "$kernel/fences" "$kernel/drivers/gpu/drm/vkms" -maxdepth 1 \
        -name '*.ko*' -exec cp {} "$disk/lib/modules/$release" \;
    busybox depmod -b "$disk" "$release" 2>/dev/null
}

# boot MEGABYTES: boots the machine; what it prints goes to standard output. It must come to its end.
boot() {
    (cd "$disk" && find . | cpio -o -H newc --quiet | gzip -1) >"$folder/initrd"
    qemu-system-x86_64 -accel tcg -icount shift=2,sleep=off -m "$1" -display none -serial stdio -no-reboot -nic none -vga none \
        -device virtio-gpu-pci,max_outputs=2 -kernel "$kernel/image/boot/vmlinuz-$release" -initrd "$folder/initrd" \
        -append "console=ttyS0 quiet loglevel=1 no_timer_check panic=-1" </dev/null |
        awk '{ sub(/\r$/, "") } /^== end$/ { ended = 1 } !ended { print; fflush() } END { exit !ended }'
}
