#!/usr/bin/env bash
# Makes the WebAssembly module of the proved library, or of the proved program ct_tool: compiles the LLVM bitcode of its build once
# more, for 64-bit WebAssembly, with the clang of the toolchain, links it with the heap in C, and a program with its system in C, and lowers
# the memory to 32 bits (lower.py).
#
#     page/module.sh BITCODE OUT [program]
#
# The toolchain itself builds no module of code that asks for memory. Pointers have 64 bits in both, so every layout stays as it is.
set -euo pipefail

here=$(cd "$(dirname "$0")" && pwd)
bitcode=$(realpath "$1")
out=$(realpath -m "$2")
parts=(heap module wide)
level=-O3
mapfile -t calls < <(sed -n 's/^[a-z].*[ *]\(ct_[a-z_]*\)(.*/--export=\1/p' "$here/../bindings/ct.h")
if [[ ${3:-} == program ]]; then
    parts+=(system)
    calls=(--export=main)
    level=-Os # a fifth less of page; a search takes a third longer
fi
kit=$(dirname "$(realpath "$(command -v rt)")")/..
clang=$kit/toolchain/bin/clang
work=$(mktemp -d)
trap 'rm -rf "$work"' EXIT
cd "$work"

# As text, with the machine taken out: its layout of data, its name and what it says of stacks.
"$clang" --no-default-config --target=x86_64-unknown-linux-gnu -x ir "$bitcode" -S -emit-llvm -O0 -Xclang -disable-llvm-passes -o x86.ll
layout='e-m:e-p:64:64-p10:8:8-p20:8:8-i64:64-i128:128-n32:64-S128-ni:1:10:20'
sed -e "s/^target datalayout = .*/target datalayout = \"$layout\"/" \
    -e 's/^target triple = .*/target triple = "wasm64-unknown-unknown"/' \
    -e 's/ "probe-stack"="inline-asm" "stack-probe-size"="[0-9]*"//' \
    -e 's/ "target-cpu"="[^"]*"//' \
    -e '/^declare .*@llvm.x86.ssse3.pshuf.b.128/d; s/@llvm.x86.ssse3.pshuf.b.128/@bytes_of/g' x86.ll >wasm.ll
if grep -q '@bytes_of' wasm.ll; then cat "$here/bytes_of.ll" >>wasm.ll; fi
if grep -q '@llvm\.x86' wasm.ll; then
    echo "page/module.sh: an instruction of x86-64 that has no other form here: $(grep -om1 '@llvm\.x86[a-z0-9._]*' wasm.ll)" >&2
    exit 1
fi

wasm=(--no-default-config --target=wasm64-unknown-unknown -mbulk-memory -msimd128)
"$clang" "${wasm[@]}" -mllvm -sink-common-insts=false -x ir wasm.ll -c "$level" -ffunction-sections -fdata-sections -o library.o
for part in "${parts[@]}"; do
    "$clang" "${wasm[@]}" -nostdlib -ffreestanding -O2 -Wall -Wextra -Wno-incompatible-library-redeclaration -c "$here/$part.c" -o "$part.o"
done
ln -s "$kit/toolchain/bin/ld.lld" wasm-ld
# The stack lies below all else, so that a call which is too deep ends the module, and is as large as a program's on Linux.
./wasm-ld -m wasm64 --no-entry --gc-sections --strip-all --stack-first -z stack-size=8388608 "${calls[@]}" \
    library.o "${parts[@]/%/.o}" -o module.wasm
python3 "$here/lower.py" module.wasm "$out"
