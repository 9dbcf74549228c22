#!/bin/bash
# Proves and builds a static library over the libraries below it that stand in their crates' out/, as the gate leaves them; where
# one is missing, rt lib proves and builds all of them first.
#
#     tools/archive.sh CRATE_FOLDER ARCHIVE [TOOLCHAIN]      TOOLCHAIN: a folder like the kit's toolchain/, which is taken else
#                                                            RT_KIT: the kit's folder, if not that of the command rt
set -euo pipefail
[ $# -ge 2 ] || { sed -n '5,6s/^# *//p' "$0" >&2; exit 2; }
RT_KIT=${RT_KIT:-$(dirname "$(dirname "$(realpath "$(command -v rt)")")")}
export RT_KIT
crate=$(realpath "$1") archive=$(realpath -m "$2") toolchain=$(realpath "${3:-$RT_KIT/toolchain}")
log=$(mktemp)
trap 'rm "$log"' EXIT

# The words with which rt would call rattle for the crate, one a line; none where a library below is missing.
words_of_crate() {
    PYTHONDONTWRITEBYTECODE=1 PYTHONPATH=$RT_KIT/bin python3 - "$crate" <<'END'
import os
import sys

import rtlib

crate = rtlib.Crate(sys.argv[1], rtlib.root_above(sys.argv[1]), {})
crate.out = sys.stderr
if all(os.path.isfile(f"{dep.rlib}/format") for dep in crate.below()):
    print("\n".join(crate.words(["--jobs", "1"])))
END
}

mapfile -t words < <(words_of_crate)
cd "$crate"
if [ ${#words[@]} -eq 0 ]; then
    rt lib
    mapfile -t words < <(words_of_crate)
fi
mkdir -p out "$(dirname "$archive")"
"$RT_KIT/bin/rattle" build "${words[@]}" --incremental out/incremental --cpu x86-64 --toolchain "$toolchain" -o "$archive" \
    >"$log" 2>&1 || { tail -20 "$log" >&2; exit 1; }
