#!/usr/bin/env bash
# Times `ct replay` on generated records and compares its reports with bench/model.py.
#
#     bench/run.sh [--whole] [--version V] [--beside PROGRAM].. [--runs N] [CT]
#
# CT: the built program; crates/ct/out/ct if left out. --whole adds records of the
# whole algorithm: without and with crashes; lossy ones, of a network that loses and
# repeats; ones of two members at which 10,000 and 100,000 messages are pending while
# they propose one at a time; and ones of three members at which 9,000 and 90,000 are,
# of whom two begin each instance and the third follows. --version: records of an older
# version, of the kinds that it can say. --beside: a program that replays the record on
# its standard input too, run in turn with CT; once for each such program. A program
# that is called ct is given the word replay.
#
# Prints a table row for each record: processor seconds (user and system, the least
# of N runs, 3 if left out), peak resident memory in MiB, and whether each report is the
# model's; with --beside the same of each such program, and CT's seconds and MiB over its.
# Ends with status 1 where a report is another.
set -euo pipefail

here=$(cd "$(dirname "$0")" && pwd)

# program PATH: its full path, where there is such a program.
program() {
    if [[ ! -x $1 || -d $1 ]]; then
        echo "bench/run.sh: no program at $1" >&2
        exit 2
    fi
    realpath "$1"
}

kinds=(plain)
programs=()
names=(ct)
version=3
runs=3
while [[ ${1-} == --* ]]; do
    case $1 in
        --whole) kinds+=(whole crashes lossy pending followers) ;;
        --version) version=${2-}; shift ;;
        --beside) programs+=("$(program "${2-}")"); names+=("beside${#programs[@]}"); shift ;;
        --runs) runs=${2-}; shift ;;
        *) echo "bench/run.sh: no option $1" >&2; exit 2 ;;
    esac
    shift
done
if [[ $version != [123] ]]; then
    echo "bench/run.sh: no version '$version'" >&2
    exit 2
fi
if [[ ! $runs =~ ^[1-9][0-9]?$ ]]; then
    echo "bench/run.sh: --runs is 1 to 99" >&2
    exit 2
fi
ct=$(program "${1:-$here/../crates/ct/out/ct}")
folder=$(mktemp -d)
trap 'rm -rf "$folder"' EXIT
record=$folder/record.json

# Appends `<user> <system> <KiB>` of one run to a file and ends with its status; stands in
# where there is no GNU time. Python's own memory before the start counts as a floor.
stand_in='
import resource, subprocess, sys
status = subprocess.run(sys.argv[2:]).returncode
used = resource.getrusage(resource.RUSAGE_CHILDREN)
print(used.ru_utime, used.ru_stime, used.ru_maxrss, file=open(sys.argv[1], "a"))
sys.exit(status)'
if /usr/bin/time -q -f '%U %S %M' true >"$folder/probe" 2>&1; then
    timed=(/usr/bin/time -q -a -f '%U %S %M' -o)
else
    timed=(python3 -c "$stand_in")
fi

# run NAME: one run of ct or of a program beside it; adds to $folder/NAME.costs.
run() {
    local words=("$ct")
    [[ $1 == ct ]] || words=("${programs[${1#beside} - 1]}")
    [[ ${words[0]##*/} != ct ]] || words+=(replay)
    "${timed[@]}" "$folder/$1.costs" "${words[@]}" <"$record" >"$folder/report"
}

# outcome: runs all in turn, as often as is asked for, and says how their reports are.
outcome() {
    local name turn
    rm -f "$folder"/*.costs
    for ((turn = 0; turn < runs; turn++)); do
        for name in "${names[@]}"; do
            if ! run "$name"; then
                echo "$name failed"
                return
            elif ! cmp -s "$folder/report" "$folder/wanted"; then
                echo "$name: another than the model's"
                return
            fi
        done
    done
    echo "as the model's"
}

# columns: the least seconds and the greatest MiB of each, and ct's over those of each other.
columns() {
    local costs=("${names[@]/#/$folder/}")
    awk '
        FNR == 1 { i++ }
        FNR == 1 || $1 + $2 < seconds[i] { seconds[i] = $1 + $2 }
        $3 > peak[i] { peak[i] = $3 }
        END {
            for (j = 1; j <= i; j++) {
                printf " %8.2f %6d", seconds[j], peak[j] / 1024
                if (j > 1) printf " %6s %6.2f", seconds[j] ? sprintf("%.2f", seconds[1] / seconds[j]) : "-", peak[1] / peak[j]
            }
        }' "${costs[@]/%/.costs}"
}

# options KIND MEMBERS STEPS: the generator's options for such a record, one a line.
options() {
    case $1 in
        plain) ;;
        whole) echo --whole ;;
        crashes) printf '%s\n' --whole --crash "$((($2 - 1) / 2))" ;;
        lossy) printf '%s\n' --whole --lose 3 --repeat 6 ;;
        pending) printf '%s\n' --whole --pending "$(($3 / 6))" --instances "$(($3 / 600))" --batch 1 ;;
        followers) printf '%s\n' --whole --pending "$(($3 * 9 / 100))" --batch 1 --follow 100 ;;
    esac
}

# groups KIND: the numbers of members of its records, where this version can say them.
groups() {
    case $1 in
        crashes) echo 5 16 ;;
        lossy) [[ $version == 1 ]] || echo 1 5 16 ;;
        pending) [[ $version != 3 ]] || echo 2 ;;
        followers) [[ $version != 3 ]] || echo 3 ;;
        *) echo 1 5 16 ;;
    esac
}

# sizes KIND: the numbers of steps of its records.
sizes() {
    case $1 in
        pending) echo 60000 600000 ;;
        *) echo 100000 1000000 ;;
    esac
}

failed=0
printf '%-9s %8s %9s' record members steps
printf ' %8s %6s' seconds MiB
for name in "${names[@]:1}"; do
    printf ' %8s %6s %6s %6s' "$name" MiB ratio ratio
done
printf '  %s\n' report
for kind in "${kinds[@]}"; do
    for members in $(groups "$kind"); do
        for steps in $(sizes "$kind"); do
            mapfile -t extra < <(options "$kind" "$members" "$steps")
            extra+=(--version "$version" --members "$members" --steps "$steps" --seed 1)
            python3 "$here/generate.py" "${extra[@]}" >"$record" 2>"$folder/counts"
            python3 "$here/model.py" <"$record" >"$folder/wanted"
            said=$(outcome)
            [[ $said == as* ]] || failed=1
            printf '%-9s %8d %9d%s  %s\n' "$kind" "$members" "$steps" "$(columns)" "$said"
        done
    done
done
exit "$failed"
