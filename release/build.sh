#!/usr/bin/env bash
# Makes what a release carries, of what the gate built: archives and packages that work without the toolchain, and their sums.
#
#     release/build.sh [OUT]
#
# OUT: the folder; dist, which is emptied before, if left out. Takes ct and ct_tool of crates/, libct of bindings/out and the modules of
# bindings/node/out, which bindings/build.sh and page/build.sh made, and the page that the latter wrote to page/out. Each package has a file
# ORIGIN: its version, of which commit and with which kit it is made, and the sums of what was compiled. The same files make the same bytes.
# At a release VERSION and CHANGELOG.md are those of it, and page/ct.html becomes the page that is made.
set -euo pipefail

here=$(cd "$(dirname "$0")" && pwd)
root=$(dirname "$here")
out=$(realpath -m "${1:-$root/dist}")
version=$(<"$root/VERSION")
programs=("$root"/crates/{ct/out/ct,ct_tool/out/ct_tool})
libraries=("$root"/bindings/out/{libct.a,libct.so})
modules=("$root"/bindings/node/out/{ct.wasm,tool.wasm})
page=$root/page/out/ct.html
newest=2.17       # of the C library, as the wheel's name says
newest_there=2.34 # the same for programs, as README says

for it in "${programs[@]}" "${libraries[@]}" "${modules[@]}" "$page"; do
    [[ -e $it ]] || { echo "release/build.sh: no $it; run .ci/run before" >&2; exit 2; }
done
work=$(mktemp -d)
trap 'rm -rf "$work"' EXIT
rm -rf "$out"
mkdir -p "$out"
umask 022

{
    echo "version $version"
    echo "commit $(git -C "$root" rev-parse --short=12 HEAD)$([[ -z $(git -C "$root" status --porcelain -uno) ]] || echo ' and changes')"
    echo "kit $(head -n 1 "$(dirname "$(realpath "$(command -v rt)")")/../KIT-ID")"
    sha256sum "${programs[@]}" "${libraries[@]}" "${modules[@]}" | sed 's, .*/, ,'
} >"$work/ORIGIN"

# folder NAME FILE..: a new folder of that name, with ORIGIN and these files.
folder() {
    mkdir -p "$work/$1"
    cp -p "$work/ORIGIN" "${@:2}" "$work/$1"
}

# packed FILE NAME: the archive of the folder, without the moment and the user.
packed() {
    chmod -R u=rwX,go=rX "$work/$2"
    tar -C "$work" --sort=name --mtime=@0 --owner=0 --group=0 --numeric-owner -cf - "$2" | gzip -n9 >"$out/$1"
}

# imports FILE NEWEST: the file wants no other library than that of C, and of that this version or older ones.
imports() {
    local wanted
    wanted=$(objdump -p "$1" | awk '$1 == "NEEDED" && $2 != "libc.so.6" { print $2 }')
    [[ -z $wanted ]] || { echo "release/build.sh: $1 wants $wanted, which not each machine has" >&2; exit 1; }
    wanted=$(objdump -T "$1" | grep -o 'GLIBC_[0-9.]*' | sed 's/GLIBC_//' | sort -Vu | tail -n 1)
    [[ $(printf '%s\n' "$wanted" "$2" | sort -V | tail -n 1) == "$2" ]] ||
        { echo "release/build.sh: $1 wants version $wanted of glibc; $2 is what is told of it" >&2; exit 1; }
}
for it in "${programs[@]}"; do imports "$it" "$newest_there"; done
imports "${libraries[1]}" "$newest"

whole=malletochre-$version-x86_64-linux
folder "$whole"
mkdir -p "$work/$whole"/{bin,include,lib/pkgconfig,share/man/man1,share/bash-completion/completions,share/doc/malletochre}
cp "${programs[@]}" "$work/$whole/bin"
cp "${libraries[0]}" "$work/$whole/lib"
cp "${libraries[1]}" "$work/$whole/lib/libct.so.0"
ln -s libct.so.0 "$work/$whole/lib/libct.so"
cp "$root/bindings/ct.h" "$work/$whole/include"
sed "s/VERSION/$version/" "$here/ct.pc" >"$work/$whole/lib/pkgconfig/ct.pc"
cp "$root"/docs/man/*.1 "$work/$whole/share/man/man1"
for it in "$root"/docs/completions/*.bash; do cp "$it" "$work/$whole/share/bash-completion/completions/$(basename "$it" .bash)"; done
cp -r "$root"/{README.md,CHANGELOG.md,docs,examples} "$work/$whole/share/doc/malletochre"
rm -r "$work/$whole/share/doc/malletochre/docs"/{man,completions}
packed "$whole.tar.gz" "$whole"

python3 - "$root/bindings/python" "$out" "$work/ORIGIN" "manylinux_${newest/./_}_x86_64" <<'PYTHON'
import sys
sys.dont_write_bytecode = True
sys.path.insert(0, sys.argv[1])
import backend
backend.build_wheel(sys.argv[2], {"origin": sys.argv[3], "platform": sys.argv[4]})
PYTHON

sys=malletochre-sys-$version
folder "$sys" "$root"/bindings/rust/sys/{Cargo.toml,build.rs} "${libraries[0]}"
cp -r "$root/bindings/rust/sys/src" "$work/$sys"
packed "$sys.crate" "$sys"
crate=malletochre-$version
folder "$crate" "$root"/bindings/rust/Cargo.lock
cp -r "$root/bindings/rust/src" "$work/$crate"
sed "s,path = \"sys\",path = \"../$sys\"," "$root/bindings/rust/Cargo.toml" >"$work/$crate/Cargo.toml"
packed "$crate.crate" "$crate"

folder malletochre-go "$root"/bindings/go/{go.mod,*.go} "$root/bindings/ct.h" "${libraries[0]}"
rm "$work"/malletochre-go/*_test.go
packed "malletochre-go-$version.tar.gz" malletochre-go

folder package "$root"/bindings/node/{package.json,*.js,*.mjs,*.d.ts}
mkdir "$work/package/out"
cp "${modules[@]}" "$work/package/out"
packed "malletochre-$version.tgz" package

cp "$page" "$out"
(cd "$out" && sha256sum -- * >"$work/SHA256SUMS" && mv "$work/SHA256SUMS" .)
cat "$work/ORIGIN"
ls -l "$out"
