#!/usr/bin/env bash
# Where a replay takes its time: counts by function of what `perf` saw, and page faults.
#
#     bench/profile.sh [--lines N] PROGRAM RECORD
#
# PROGRAM replays the record on its standard input; one that is called ct is given the word
# replay. Prints the share of the kernel, the number of page faults, and the N functions, 25
# if left out, that were seen most often. Needs perf (Debian: linux-perf) and a kernel that
# lets it count.
set -euo pipefail

lines=25
if [[ ${1-} == --lines ]]; then
    lines=${2-}
    shift 2
fi
if [[ $# != 2 || ! -x $1 || ! -r $2 || ! $lines =~ ^[1-9][0-9]*$ ]]; then
    echo "usage: bench/profile.sh [--lines N] PROGRAM RECORD" >&2
    exit 2
fi
if ! command -v perf >/dev/null; then
    echo "bench/profile.sh: no perf; Debian's package is linux-perf" >&2
    exit 2
fi
words=("$(realpath "$1")")
[[ ${1##*/} != ct ]] || words+=(replay)
folder=$(mktemp -d)
trap 'rm -rf "$folder"' EXIT

perf stat -x ';' -e page-faults -o "$folder/faults" "${words[@]}" <"$2" >/dev/null
perf record -q -F 5000 -o "$folder/samples" "${words[@]}" <"$2" >/dev/null

# report SORT: perf's table by this, a line for each.
report() {
    perf report -i "$folder/samples" --stdio --percentage relative -g none --sort "$1" 2>/dev/null | sed -E '/^#/d; /^$/d; s/( +-)* *$//'
}

awk -F ';' '$3 ~ /^page-faults/ { print "page faults", $1 }' "$folder/faults"
report dso | head -n 3
report symbol >"$folder/functions"
head -n "$lines" "$folder/functions"
