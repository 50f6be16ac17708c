#!/usr/bin/env bash
# Makes the WebAssembly modules of the proved library and of the proved program ct_tool, in bindings/node/out, and the page of them.
#
#     page/build.sh [OUT]
#
# OUT: the page; page/ct.html, which is kept in the repository, if left out. The bitcode is that of their proved builds,
# crates/NAME/out/NAME.bc; where it isn't there or is older than a source of the crates, bindings/archive.py proves and builds them, over
# what `rt ci` left of the crates below.
set -euo pipefail

here=$(cd "$(dirname "$0")" && pwd)
out=$(realpath -m "${1:-$here/ct.html}")

for tool in rt python3; do
    command -v "$tool" >/dev/null || { echo "page/build.sh: no $tool on the path" >&2; exit 2; }
done
newer() { find "$here"/../crates/*/{src,specs} -newer "$1" -type f | grep -q .; }

# module CRATE OUT [program]: the module of the crate's bitcode.
module() {
    local bitcode=$here/../crates/$1/out/$1.bc
    if [[ ! -e $bitcode ]] || newer "$bitcode"; then
        python3 "$here/../bindings/archive.py" "$1" || { echo "page/build.sh: no bitcode of $1; run rt ci before" >&2; exit 2; }
    fi
    bash "$here/module.sh" "$bitcode" "${@:2}"
}

modules=$here/../bindings/node/out
mkdir -p "$modules" "$(dirname "$out")"
module ct_embed "$modules/ct.wasm"
module ct_tool "$modules/tool.wasm" program
python3 "$here/assemble.py" "$modules/ct.wasm" "$modules/tool.wasm" "$out"
ls -l "$modules/ct.wasm" "$modules/tool.wasm" "$out"
