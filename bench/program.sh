#!/bin/sh
# What the timings share that build their own program. Its text is main.rt.txt in the folder $here; it is built in a folder of its
# own, $work, beside copies of the crates that it uses.
top=$(cd "$here/../.." && pwd)
work=$(mktemp -d)
trap 'rm -rf "$work"' EXIT

# Copies a crate, with what was proved of it, and all of the repository's that it stands on.
add() {
    [ -d "$top/crates/$1" ] && [ ! -e "$work/crates/$1" ] || return 0
    cp -a "$top/crates/$1" "$work/crates/"
    line=$(grep "^$1[ :]" "$top/crates.txt")
    echo "$line" >>"$work/crates.txt"
    for below in ${line#*:}; do
        add "$below"
    done
}

# program NAME CRATE..: goes into the folder of the program, which has this name and uses these crates.
program() {
    name=$1
    shift
    mkdir -p "$work/crates/$name/src"
    for crate; do
        add "$crate"
    done
    echo "$name: $*" >>"$work/crates.txt"
    cp "$top/HANDLES" "$work/"
    cp "$here/main.rt.txt" "$work/crates/$name/src/main.rt"
    cd "$work/crates/$name"
}
