#!/usr/bin/env bash
# Makes libct.a and libct.so, in bindings/out, of the static library that was proved.
#
#     bindings/build.sh [ARCHIVE]
#
# ARCHIVE: the static library; crates/ct_embed/out/libct_embed.a if left out. Where that isn't there it is proved and built, over what
# `rt ci` left of the crates below it (archive.py) or, where that isn't there either, by `rt lib`, which proves them too. Both libraries
# define `ct_*` and nothing else, and need malloc, realloc, free, memcpy, memmove and memset: the three functions by which the
# code asks for memory (liblibc_c.a of the toolchain) are kept in.
set -euo pipefail

here=$(cd "$(dirname "$0")" && pwd)
crate=$here/../crates/ct_embed
archive=${1:-$crate/out/libct_embed.a}
out=$here/out

for tool in rt cc ld objcopy ar; do
    command -v "$tool" >/dev/null || { echo "bindings/build.sh: no $tool on the path" >&2; exit 2; }
done
heap=$(dirname "$(realpath "$(command -v rt)")")/../c/liblibc_c.a
[[ -e $heap ]] || { echo "bindings/build.sh: no $heap" >&2; exit 2; }
[[ $# -gt 0 || -e $archive ]] || python3 "$here/archive.py" || (cd "$crate" && rt lib)
[[ -e $archive ]] || { echo "bindings/build.sh: no $archive" >&2; exit 2; }

mkdir -p "$out"
work=$(mktemp -d "$out/work.XXXXXX")
trap 'rm -rf "$work"' EXIT

ld -r -o "$work/ct.o" --whole-archive "$archive" "$heap"
objcopy --wildcard --keep-global-symbol='ct_*' "$work/ct.o"
rm -f "$work/libct.a"
ar rcsD "$work/libct.a" "$work/ct.o"
echo '{ global: ct_*; local: *; };' >"$work/exports"
cc -shared -o "$work/libct.so" -Wl,--whole-archive "$work/libct.a" -Wl,--no-whole-archive -Wl,-soname,libct.so.0 \
    -Wl,--version-script,"$work/exports" -Wl,--gc-sections -Wl,-z,text -Wl,-z,relro,-z,now -Wl,-z,noexecstack
mv "$work/libct.a" "$work/libct.so" "$out"
ls -l "$out/libct.a" "$out/libct.so"
