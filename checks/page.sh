#!/bin/sh
# Tries the page in Chromium, where there is one: with a stand-in for the module, and then with the module, where the toolchain can
# make it.
#
# usage: checks/page.sh
set -eu
[ $# -eq 0 ] || { sed -n '5s/^# \{0,1\}//p' "$0" >&2; exit 2; }
top=$(cd "$(dirname "$0")/.." && pwd)
made=$(mktemp -d)
trap 'rm -r "$made"' EXIT
export PYTHONDONTWRITEBYTECODE=1
"$top/web/test.py" >"$made/said" || { cat "$made/said"; exit 1; }
cat "$made/said"
if grep -q ': skipped, ' "$made/said"; then exit; fi
if [ -z "${RT_KIT-}" ] && ! command -v rt >/dev/null; then
    echo "checks/page.sh: skipped, there is no rt"
    exit
fi
kit=${RT_KIT:-$(dirname "$(dirname "$(realpath "$(command -v rt)")")")}
if ! "$kit/toolchain/bin/clang" --print-targets 2>"$made/why" | grep -q wasm64; then
    echo "checks/page.sh: skipped, the toolchain's clang makes no module for wasm64"
    exit
fi
"$top/web/build.sh" "$made/page"
"$top/web/test.py" "$made/page"
