#!/usr/bin/env bash
# Times the bindings: typed steps and lines of a session a second, by language, beside a pipe to `ct_tool interact`.
#
#     bench/embed.sh [--steps N] [--lines N] [--beside PROGRAM] [CT_TOOL]
#
# CT_TOOL: the built program; crates/ct_tool/out/ct_tool if left out. bindings/build.sh has made the libraries before, page/build.sh the
# modules; cc, cargo and python3 are on the path, and go and node where they are to be timed. --steps: of the record whose steps are typed
# calls (1,000,000 if left out); --lines: of the schedule that is told line by line (200,000). --beside: a program that replays the record
# on its standard input, reading it too. The runs are of the whole algorithm of five members; each row of the table is the best of three.
set -euo pipefail

here=$(cd "$(dirname "$0")" && pwd)
bindings=$here/../bindings
steps=1000000
lines=200000
beside=
while [[ ${1-} == --* ]]; do
    case $1 in
        --steps) steps=$2 ;;
        --lines) lines=$2 ;;
        --beside) beside=$(realpath "$2") ;;
        *) echo "bench/embed.sh: no option $1" >&2; exit 2 ;;
    esac
    shift 2
done
tool=$(realpath "${1:-$here/../crates/ct_tool/out/ct_tool}")
folder=$(mktemp -d)
trap 'rm -rf "$folder"' EXIT
mkdir "$folder/long" "$folder/short"
export PYTHONPATH=$bindings/python PYTHONDONTWRITEBYTECODE=1 CT_TOOL=$tool

python3 "$bindings/tests/inputs.py" "$tool" "$folder/long" --steps "$steps"
python3 "$bindings/tests/inputs.py" "$tool" "$folder/short" --steps "$lines"
for it in lines steps pipe; do
    cc -std=c11 -D_GNU_SOURCE -O2 -I"$bindings" "$bindings/tests/$it.c" "$bindings/out/libct.a" -o "$folder/$it"
done
(cd "$bindings/rust" && cargo build --offline --quiet --release --examples)
rust=${CARGO_TARGET_DIR:-$bindings/rust/target}/release/examples

# best NAME COMMAND..: a row of the table, by the best of three runs. The command tells its figures on standard error.
best() {
    local name=$1
    shift
    for _ in 1 2 3; do
        "$@" 2>&1 >"$folder/printed" | grep -o '[0-9]* [a-z]*/s'
    done | sort -n | tail -n 1 | awk -v name="$name" '{ printf "| %s | %s %s |\n", name, $1, $2 }'
}

echo "| what | a second |"
echo "|---|---|"
best 'typed steps, C' "$folder/steps" "$folder/long/steps_taken"
cmp "$folder/printed" "$folder/long/record.json"
best 'typed steps, Rust' "$rust/steps" "$folder/long/steps_taken"
cmp "$folder/printed" "$folder/long/record.json"
best 'typed steps, Python' python3 "$bindings/python/tests/steps.py" "$folder/long/steps_taken"
if command -v go >/dev/null; then
    best 'typed steps, Go' env -C "$bindings/go" CT_STEPS="$folder/long/steps_taken" sh -c 'go test -v -count=1 -run Steps . >&2'
fi
if command -v node >/dev/null; then
    best 'typed steps, node' node --expose-gc "$bindings/node/tests/asked.js" steps "$folder/long/steps_taken"
fi
best 'typed steps over a pipe, Python' env CT_LIB= python3 "$bindings/python/tests/steps.py" "$folder/short/steps_taken"
best 'lines, C' "$folder/lines" "$folder/short/serials_told"
best 'lines, Rust' "$rust/lines" "$folder/short/serials_told"
best 'lines, Python' python3 "$bindings/python/tests/lines.py" "$folder/short/serials_told"
best 'lines over a pipe, C' "$folder/pipe" "$tool" "$folder/short/serials_told"
best 'lines at once, C' "$folder/lines" "$folder/short/serials_told" once
best 'lines at once, Python' python3 "$bindings/python/tests/lines.py" "$folder/short/serials_told" once

if [[ -n $beside ]]; then
    TIMEFORMAT=%U
    for _ in 1 2 3; do
        { time "$beside" <"$folder/long/record.json" >/dev/null; } 2>&1
    done | sort -n | head -n 1 | awk -v steps="$steps" -v name="$(basename "$beside")" \
        '{ printf "| the record, read and replayed by %s | %.0f steps/s |\n", name, steps / $1 }'
fi
