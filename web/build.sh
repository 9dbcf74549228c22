#!/bin/bash
# Makes the page as a folder of files, which any static server may serve.
#
#     web/build.sh [--page] [FOLDER]      FOLDER: web/out if not told; --page leaves out the module, which asks for the toolchain
#     python3 -m http.server -d web/out
set -euo pipefail
here=$(dirname "$(realpath "$0")")
top=$(dirname "$here")
page_only=
if [ "${1:-}" = --page ]; then page_only=yes; shift; fi
out=$(realpath -m "${1:-$here/out}")
mkdir -p "$out/examples"

cp "$here"/{index.html,style.css} "$here"/*.js "$out"
cp "$top"/examples/*.kms "$top"/examples/*.replay "$out/examples"
python3 "$here/words.py" > "$out/words.json"
(cd "$out/examples" && python3 -c 'import json, os; print(json.dumps(sorted(os.listdir())))') > "$out/examples.json"
calls=(kms_one kms_replay kms_verdicts kms_suspend kms_legacy kms_audit)
[ -n "$page_only" ] || "$here/to_wasm.sh" "$top/crates/kms_c" "$out/kms.wasm" "${calls[@]}"
echo "$out"
