#!/usr/bin/env bash
# Runs the built program `ct` on the cases of table.txt, on the records of ../examples, freely, and with little memory; and
# the built program `ct_tool` on the cases of tool_table.txt, on the schedules of ../examples, on the implementation in Python
# and the cluster there, in sessions, over many goals, by a search over workers, and on a terminal.
# Compares the man pages and the completions of both with their help, and runs what the documents show.
#
#     cases/run.sh [CT [CT_TOOL]]        the built programs; those of ../crates/*/out if left out
#     cases/run.sh --table PROGRAM       tool_table.txt alone, with another program that has to do what CT_TOOL does; under node, which opens
#                                        streams that are closed, without the cases of these
#
# Prints a line for each failing case and ends with `N passed, M failed`, and with
# status 0 only where none failed. A run of more than 20 seconds fails, and so does a
# case that has the name of another. Needs bash 4.4, cc, Python 3.8, its packages jsonschema, distributed and psutil
# (Debian's python3-jsonschema, python3-distributed and python3-psutil) and, for a program in a document, rt.
set -u
export LC_ALL=C

here=$(cd "$(dirname "$0")" && pwd)
only=''
if [[ ${1-} == --table ]]; then
    only=$2
    set -- "$2" "$2"
fi
ct=${1:-$here/../crates/ct/out/ct}
tool=${2:-$here/../crates/ct_tool/out/ct_tool}
for package in jsonschema distributed psutil; do
    if ! python3 -c "import $package" 2>/dev/null; then
        echo "cases/run.sh: no package $package for python3 (Debian's python3-$package)" >&2
        exit 2
    fi
done
for program in "$ct" "$tool"; do
    if [[ ! -x $program || -d $program ]]; then
        echo "cases/run.sh: no program at $program" >&2
        exit 2
    fi
done
ct=$(realpath "$ct")
tool=$(realpath "$tool")
cd "$here" || exit 2
folder=$(mktemp -d)
trap 'rm -rf "$folder"' EXIT
empty_record='{"batch":1048560,"cells":4,"n":3,"steps":[],"version":3}'
passed=0
failed=0
declare -A named=()

# repeat NUMBER TEXT: the text so many times.
repeat() { yes "$2" | head -n "$1" | tr -d '\n'; }

# steps S P [STEPS]: S submissions and P postponements of serial 1, by member 1, and then the steps, joined by commas.
steps() {
    { repeat "$1" '["submit",1,["set",0,7]],' && repeat "$2" '["postpone",1,1],' && printf '%s' "${3-}"; } | sed 's/,$//'
}

# record N S P [STEPS]: a record of these for N members.
record() { printf '{"batch":1048560,"cells":4,"n":%d,"steps":[' "$1" && steps "${@:2}" && printf '],"version":3}'; }

# old_record N S P: the same of version 1.
old_record() { printf '{"cells":4,"n":%d,"steps":[' "$1" && steps "${@:2}" && printf '],"version":1}'; }

# wide P: a record of one member, of a submission and P postponements, with 1,000 spaces behind each comma before an array.
wide() { record 1 1 "$1" | sed "s/,\[/,$(printf '%1000s' '')[/g"; }

# make_input FORM: the input of the form, on standard output.
make_input() {
    local form=$1 word first second third rest
    read -r word first second third rest <<<"$form"
    case $word in
    @escaped) printf '%b' "${form#@escaped }" ;;
    @spaces) head -c "$first" /dev/zero | tr '\0' ' ' ;;
    @padded) printf '%s%*s' "$empty_record" $((first - ${#empty_record})) '' ;;
    @brackets) repeat "$first" '[' && repeat "$second" ']' ;;
    @record) record "$first" "$second" "$third" "$rest" ;;
    @wide) wide "$first" ;;
    @old_record) old_record "$first" "$second" "$third" ;;
    @*) cat "${word#@}" ;;
    *) printf '%s' "$form" ;;
    esac
}

# in_pieces TEXT: the text, its first byte a while ahead of the others.
in_pieces() { printf '%s' "${1:0:1}" && sleep 0.2 && printf '%s' "${1:1}"; }

# with_input FORM COMMAND..: runs the command on the input of the form.
with_input() {
    local form=$1
    shift
    case $form in
    @closed) "$@" <&- ;;
    @directory) "$@" <"$folder" ;;
    @zeros) "$@" </dev/zero ;;
    @piped\ *) "$@" < <(in_pieces "${form#@piped }") ;;
    *) "$@" <"$folder/input" ;;
    esac
}

# with_output FORM COMMAND..: runs the command and keeps its output, where the form has one.
with_output() {
    local form=$1 status pipe
    shift
    case $form in
    @closed) "$@" >&- ;;
    @full) "$@" >/dev/full ;;
    @unread)
        exec {pipe}> >(:)
        wait $!
        "$@" >&"$pipe"
        status=$?
        exec {pipe}>&-
        return "$status"
        ;;
    *) "$@" >"$folder/output" ;;
    esac
}

# as_wanted FORM FILE: whether the file holds what the form says.
as_wanted() {
    case $1 in
    '' | @closed | @full | @unread) [[ ! -s $2 ]] ;;
    some) [[ -s $2 ]] ;;
    @*) cmp -s "${1#@}" "$2" ;;
    *) printf '%b\n' "$1" | cmp -s - "$2" ;;
    esac
}

# start_of FILE: its first bytes on one line.
start_of() { head -c 120 "$1" | tr '\n' ' '; }

# check NAME ARGUMENTS STATUS OUTPUT ERROR INPUT: runs one case of $program and counts it.
check() {
    local name=$1 words status wrong=''
    [[ -z ${named[$name]-} ]] || wrong+=" another case has this name;"
    named[$name]=1
    read -ra words < <(printf '%b\n' "$2")
    words=("${words[@]//\~/ }")
    : >"$folder/output"
    case $6 in
    @closed | @directory | @zeros | @piped\ *) ;;
    *) make_input "$6" >"$folder/input" ;;
    esac
    with_output "$4" with_input "$6" timeout -k 5 20 "$program" ${words[@]+"${words[@]}"} 2>"$folder/error"
    status=$?
    [[ $status == "$3" ]] || wrong+=" status $status, not $3;"
    as_wanted "$4" "$folder/output" || wrong+=" output '$(start_of "$folder/output")', not '$4';"
    as_wanted "$5" "$folder/error" || wrong+=" error '$(start_of "$folder/error")', not '$5';"
    if [[ -z $wrong ]]; then
        passed=$((passed + 1))
    else
        failed=$((failed + 1))
        echo "FAILED $name:${wrong%;}"
    fi
}

# trim TEXT: leaves the text without outer spaces in $trimmed.
trim() {
    trimmed=${1#"${1%%[! ]*}"}
    trimmed=${trimmed%"${trimmed##*[! ]}"}
}

# check_memory KIBIBYTES: replays a long record with so little memory; it ends with the whole report or says that memory
# was refused.
check_memory() {
    local status
    (ulimit -v "$1" && exec timeout -k 5 20 "$ct" replay) <"$folder/long" >"$folder/output" 2>"$folder/error"
    status=$?
    if { [[ $status == 0 && ! -s $folder/error ]] && cmp -s "$folder/long_report" "$folder/output"; } ||
        { [[ $status == 5 && ! -s $folder/output ]] && as_wanted 'out of memory' "$folder/error"; }; then
        passed=$((passed + 1))
    else
        failed=$((failed + 1))
        echo "FAILED memory of $1 KiB: status $status; output '$(start_of "$folder/output")'; error '$(start_of "$folder/error")'"
    fi
    [[ $status != 5 ]] || refused=$((refused + 1))
}

# check_free_runs NAME WORDS..: 20 free runs of three members that suspect nobody, with these words besides. Each is replayed,
# at least one posts a batch, and with --lose and --repeat there are such steps.
check_free_runs() {
    local name=$1 run seen='' wrong=''
    shift
    for run in {1..20}; do
        timeout -k 5 20 "$ct" free --members 3 --rate 0 --seed "$run" "$@" >"$folder/output" 2>"$folder/error" &&
            timeout -k 5 20 "$ct" replay <"$folder/output" >"$folder/report" 2>>"$folder/error" ||
            wrong+=" run $run is not replayed: '$(start_of "$folder/error")';"
        seen+=$(grep -oE ' posted [1-9]' "$folder/report"; grep -oE '\["(lose|repeat)",' "$folder/output" | sort -u)
    done
    [[ $seen == *posted* ]] || wrong+=" none of 20 posts a batch;"
    [[ $* != *--lose* || $seen == *lose* ]] || wrong+=" none of 20 loses an envelope;"
    [[ $* != *--repeat* || $seen == *repeat* ]] || wrong+=" none of 20 repeats an envelope;"
    if [[ -z $wrong ]]; then
        passed=$((passed + 1))
    else
        failed=$((failed + 1))
        echo "FAILED $name:${wrong%;}"
    fi
}

# check_walks: the same options give the same record, which is replayed; other seeds give others; what is found is as asked.
check_walks() {
    local wrong=''
    "$tool" walk --members 3 --seed 7 >"$folder/output" 2>"$folder/error" || wrong+=" a walk fails;"
    "$tool" walk --members 3 --seed 7 | cmp -s - "$folder/output" || wrong+=" a walk is not the same again;"
    ! "$tool" walk --members 3 --seed 8 | cmp -s - "$folder/output" || wrong+=" another seed gives the same walk;"
    [[ $("$ct" replay <"$folder/output") =~ ' posted '[1-9] ]] || wrong+=" a walk posts no batch;"
    "$tool" find --members 3 --goal 'any round >= 5' --seeds 1..100 2>"$folder/error" | "$ct" replay >"$folder/report" ||
        wrong+=" no seed of 100 gives a round 5;"
    [[ $("$tool" walk --members 3 --until decided 1 | "$ct" replay) =~ 'decided 1:' ]] || wrong+=" nothing is decided;"
    "$tool" walk --members 3 --lose 20 --repeat 40 --batch 1 >"$folder/output" 2>"$folder/error" &&
        "$ct" replay <"$folder/output" >"$folder/report" || wrong+=" a lossy walk is not replayed;"
    [[ $(<"$folder/output") == *'["lose",'*'["repeat",'* ]] || wrong+=" a lossy walk doesn't lose and repeat;"
    "$tool" walk --members 3 --seed 1 --lose 40 --repeat 80 --batch 1 >"$folder/output" 2>"$folder/error" &&
        "$ct" replay <"$folder/output" >"$folder/report" || wrong+=" a walk with a follower is not replayed;"
    [[ $(<"$folder/output") == *'["follow",'* ]] || wrong+=" nobody follows in a walk that loses much;"
    "$tool" walk --members 3 --seed 1 --submit 1 --rate 8 --turns 60 | "$tool" diagram | cmp -s - ../docs/run.svg ||
        wrong+=" a walk's diagram is not docs/run.svg;"
    "$tool" walk --members 3 --seed 2 --lose 20 --turns 300 >"$folder/output" 2>"$folder/error"
    [[ $("$tool" diagram "$folder/output" --to 400 | grep -cE '^<path class=.(data|est|prop|ack|nack|dec)\b.*<title>') == \
        $("$tool" state "$folder/output" --after 400 | sed -n 's/.* sent \([0-9]*\) .*/\1/p') ]] ||
        wrong+=" a walk's diagram has more or fewer arrows than envelopes were sent;"
    if [[ -z $wrong ]]; then
        passed=$((passed + 1))
    else
        failed=$((failed + 1))
        echo "FAILED walks:${wrong%;}"
    fi
}

# check_pages: the man pages and the completions are those that are made from the programs' help.
check_pages() {
    if python3 ../docs/man/make.py "$ct" "$tool" --check >"$folder/output" 2>"$folder/error"; then
        passed=$((passed + 1))
    else
        failed=$((failed + 1))
        echo "FAILED man pages and completions: $(cat "$folder/output" "$folder/error" | tr '\n' ' ')"
    fi
}

# check_widths: no line of help or of a man page is longer than a terminal of 80 columns.
check_widths() {
    local name page wrong='' program_of
    for program_of in "$ct" "$tool"; do
        for name in '' $("$program_of" --help | sed -n '/^Commands:/,/^$/s/^  \([^ ][^ ]*\).*/\1/p'); do
            "$program_of" ${name:+"$name"} --help >"$folder/output" 2>"$folder/error"
            [[ -s $folder/output || $name == help ]] || wrong+=" no help of $name;"
            wrong+=$(awk -v name="$name" 'length > 80 { printf " %s: %s;", name, $0 }' "$folder/output")
        done
    done
    for page in ../docs/man/*.1; do
        nroff -man -rLL=80n "$page" | sed 's/\x1b\[[0-9;]*m//g; s/.\x08//g' >"$folder/output"
        wrong+=$(awk -v name="$page" 'length > 80 { printf " %s: %s;", name, $0 }
            END { if (NR < 20) printf " no %s;", name }' "$folder/output")
    done
    tally 'the width of help and man pages' "$wrong"
}

# completed WORDS..: what bash offers for the last word of a command line.
completed() {
    local COMP_WORDS=("$@") COMP_CWORD=$(($# - 1)) COMPREPLY
    # shellcheck source=/dev/null
    source "../docs/completions/$1.bash" && "_$1" && echo "${COMPREPLY[*]-}"
}

# check_completions: bash offers the subcommands that help names, an option of one, and files where a file is wanted.
check_completions() {
    local wrong='' commands facts
    commands=$("$tool" --help | sed -n '/^Commands:/,/^$/s/^  \([^ ][^ ]*\).*/\1/p' | tr '\n' ' ')
    [[ $(completed ct_tool '') == "${commands% }" ]] || wrong+=" not the subcommands of ct_tool;"
    [[ $(completed ct fre) == free ]] || wrong+=" not a subcommand of ct;"
    [[ $(completed ct_tool help wal) == walk ]] || wrong+=" not the subcommand that help is wanted of;"
    [[ $(completed ct free --mem) == --members ]] || wrong+=" not an option;"
    [[ $(completed ct free --members '') == '' ]] || wrong+=" something where a number is wanted;"
    [[ $(completed ct_tool walk --seed '') == '' ]] || wrong+=" something where a number is wanted;"
    [[ $(completed ct_tool walk --until any dec) == decided ]] || wrong+=" not a word of a goal;"
    [[ $(completed ct_tool diagram --only '') == consensus ]] || wrong+=" not the kind of steps;"
    facts=$("$tool" shrink --goal 'any x' /dev/null 2>&1 | sed 's/.*x is no fact: //; s/,//g')
    # shellcheck disable=SC2086 # each word of it
    [[ $(completed ct_tool find --goal '' | tr ' ' '\n' | sort) == $(printf '%s\n' all any ever never and count $facts | sort) ]] ||
        wrong+=" not the words of goals;"
    [[ $(completed ct_tool walk --until any crashed --see) == --seed ]] || wrong+=" not an option behind a goal;"
    [[ $(completed ct_tool steps --from 2 suspicion.j) == suspicion.json ]] || wrong+=" not a file;"
    [[ $(completed ct_tool steps a --fr) == --from ]] || wrong+=" not an option behind a file;"
    [[ $(completed ct replay '<' suspicion.j) == suspicion.json ]] || wrong+=" not a file behind <;"
    if [[ -z $wrong ]]; then
        passed=$((passed + 1))
    else
        failed=$((failed + 1))
        echo "FAILED completions:${wrong%;}"
    fi
}

# tally NAME WRONG: counts a case; WRONG says what was wrong with it, or nothing.
tally() {
    if [[ -z $2 ]]; then
        passed=$((passed + 1))
    else
        failed=$((failed + 1))
        echo "FAILED $1:${2%;}"
    fi
}

# check_schedule NAME: the record of NAME.schedule has the steps of NAME.json, up to a refused one, and replays to NAME.report.
check_schedule() {
    local wrong='' at=''
    timeout -k 5 20 "$tool" record "$1.schedule" >"$folder/output" 2>"$folder/error" ||
        wrong+=" no record: '$(start_of "$folder/error")';"
    if [[ -e $1.fault ]]; then
        read -r _ at _ <"$1.fault"
        at=$((${at%:} - 1))
    fi
    python3 same_run.py "$folder/output" "$1.json" $at 2>"$folder/error" || wrong+=" its record is not of the run of $1.json;"
    timeout -k 5 20 "$ct" replay <"$folder/output" >"$folder/report" 2>"$folder/error" || wrong+=" its record is not replayed;"
    [[ -e $1.fault ]] || cmp -s "$folder/report" "$1.report" || wrong+=" another report than $1.report;"
    tally "schedule $1" "$wrong"
}

# check_written NAME RECORD: the schedule that is written of the record has that record.
check_written() {
    local wrong=''
    timeout -k 5 20 "$tool" schedule "$2" >"$folder/schedule" 2>"$folder/error" ||
        wrong+=" no schedule: '$(start_of "$folder/error")';"
    timeout -k 5 20 "$tool" record "$folder/schedule" >"$folder/output" 2>"$folder/error" ||
        wrong+=" no record: '$(start_of "$folder/error")';"
    python3 same_run.py "$folder/output" "$2" 2>"$folder/error" || wrong+=" its record is not of the run of $2;"
    tally "the schedule of $1" "$wrong"
}

# check_written_walks: the same of 25 walks that lose and repeat, in which members crash and a proposal has two messages at most; of
# each second one receipts are scattered, suspicions last and the group is cut. The lines and comments that walks give are there.
check_written_walks() {
    local seed hostile wrong='' pattern
    : >"$folder/schedules"
    for seed in {1..25}; do
        hostile=()
        ((seed % 2)) || hostile=(--scatter 64 --lasting 128 --crashes $((seed % 5 / 2)) --cut 2)
        "$tool" walk --members $((seed % 5 + 1)) --seed "$seed" --lose 20 --repeat 30 --postpone 10 --crash 1 --batch 2 --rate 32 \
            "${hostile[@]}" >"$folder/record" 2>"$folder/error" || wrong+=" walk $seed fails;"
        check_written "walk $seed" "$folder/record"
        cat "$folder/schedule" >>"$folder/schedules"
    done
    for pattern in 'receive data [0-9.]*$' 'receive est [0-9/]* from' 'receive prop [0-9/]*$' \
        'lose [a-z]* [0-9/.]*' 'postpone [a-z]' 'repeat [a-z]' '# round 2 of instance' '# decides {' '# delivers {' \
        '^batch 2$' '^expect [0-9]* crashed$' '^expect [0-9]* round ' '^expect [0-9]* delivered [0-9]'; do
        grep -q -- "$pattern" "$folder/schedules" || wrong+=" none has $pattern;"
    done
    tally 'the schedules of walks' "$wrong"
}

# check_completed RECORD: the first half of its steps goes on until all that are up have delivered the same.
check_completed() {
    local wrong=''
    python3 -c 'import json, sys; it = json.load(sys.stdin); del it["steps"][len(it["steps"]) // 2 :]; json.dump(it, sys.stdout)' \
        <"$1" >"$folder/half"
    timeout -k 5 20 "$tool" complete "$folder/half" >"$folder/output" 2>"$folder/error" ||
        wrong+=" not completed: '$(start_of "$folder/error")';"
    "$ct" replay "$folder/output" 2>&1 | awk '/^member/ { up = $3 == "up" } /^delivered/ && up' | sort -u >"$folder/delivered"
    [[ $(wc -l <"$folder/delivered") -eq 1 ]] || wrong+=' not all delivered the same;'
    tally "the completed half of $1" "$wrong"
}

# check_log NAME: the log is accepted, and replayed; or, beside NAME.fault, refused with a line that begins so and this status.
check_log() {
    local wrong='' status fault='' wanted=0
    timeout -k 5 20 "$tool" record "$1.schedule" >"$folder/output" 2>"$folder/error"
    status=$?
    [[ ! -e $1.fault ]] || { read -r fault && read -r wanted; } <"$1.fault"
    [[ $status == "$wanted" ]] || wrong+=" status $status, not $wanted;"
    [[ $(<"$folder/error") == "$fault"* ]] || wrong+=" error '$(start_of "$folder/error")', not '$fault';"
    if [[ -n $fault ]]; then
        [[ ! -s $folder/output ]] || wrong+=" a refused log has a record;"
    else
        [[ ! -s $folder/error ]] || wrong+=" error '$(start_of "$folder/error")';"
        timeout -k 5 20 "$ct" replay <"$folder/output" >"$folder/report" 2>&1 || wrong+=" its record is not replayed;"
    fi
    tally "log $1" "$wrong"
}

# check_rehearsal WORDS..: the implementation in Python is allowed each step, with these words.
check_rehearsal() {
    local wrong=''
    PYTHONDONTWRITEBYTECODE=1 timeout -k 5 60 python3 ../examples/python/rehearse.py --tool "$tool" "$@" \
        >"$folder/output" 2>"$folder/error" || wrong+=" '$(start_of "$folder/error")';"
    tally "rehearse.py $*" "$wrong"
}

# check_free NAME: free runs do what their options ask for, in the way that free_runs.py calls so.
check_free() {
    local wrong=''
    timeout -k 5 60 python3 free_runs.py "$ct" "$1" >"$folder/output" 2>&1 || wrong+=" $(start_of "$folder/output");"
    tally "free runs, $1" "$wrong"
}

# check_kept: the record of a session is in the file that was named for it, whole and with its line feed; a second session
# writes it anew.
check_kept() {
    local wrong='' text
    for text in 'members 1\n1 submit set 0 7\n1 receive data 1.1\n' 'members 1\n'; do
        printf '%b' "$text" >"$folder/input"
        timeout -k 5 20 "$tool" interact --record "$folder/kept" <"$folder/input" >"$folder/output" 2>"$folder/error" ||
            wrong+=" status $?, error '$(start_of "$folder/error")';"
        "$tool" record "$folder/input" | cmp -s - "$folder/kept" || wrong+=" not the record of $text;"
    done
    tally 'the record of a session' "$wrong"
}

# check_long NAME WANTED COMMAND..: the command writes what the file WANTED has, which is longer than 64 KiB; it reads input.
check_long() {
    local name=$1 wanted=$2 wrong=''
    shift 2
    timeout -k 5 20 "$@" <"$folder/input" >"$folder/output" 2>"$folder/error" ||
        wrong+=" status $?, error '$(start_of "$folder/error")';"
    [[ $(stat -c %s "$wanted") -gt 65536 ]] || wrong+=" only $(stat -c %s "$wanted") bytes are wanted;"
    cmp -s "$wanted" "$folder/output" || wrong+=" output '$(start_of "$folder/output")', not '$(start_of "$wanted")';"
    tally "$name" "$wrong"
}

# check_long_texts: schedules, answers and what is shown may be longer than 64 KiB.
check_long_texts() {
    local count=8000
    { echo 'members 3' && echo 'cells 4' && yes '1 submit set 0 7' | head -n "$count"; } >"$folder/input"
    { record 3 "$count" 0 && echo; } >"$folder/record"
    check_long 'a long schedule' "$folder/record" "$tool" record
    { echo ok && echo ok && seq "$count" | awk '{ printf "ok %d-%d\n", 3 * $1 - 2, 3 * $1 }'; } >"$folder/wanted"
    check_long 'long answers' "$folder/wanted" "$tool" interact

    cp "$folder/record" "$folder/input"
    seq "$count" | awk '{ printf "%4d   1  submit   set 0 7 as 1.%d  -> #%d..%d data 1.%d to all\n", $1, $1, 3 * $1 - 2, 3 * $1, $1 }' \
        >"$folder/wanted"
    check_long 'many lines of steps' "$folder/wanted" "$tool" steps
    seq "$count" | awk -v count="$count" 'BEGIN {
            printf "group 3 majority 2 cells 4 batch 1048560\nsteps %d sent %d posted 0\n", count, 3 * count
        } { for (p = 1; p <= 3; p++) line[p, $1] = sprintf("  waiting  #%d data 1.%d, sent by 1", 3 * ($1 - 1) + p, $1) } END {
            for (p = 1; p <= 3; p++) {
                printf "member %d up instance 0 idle\n", p
                for (i = 1; i <= count; i++) print line[p, i]
                printf "  refused  %d follow Undecided\n", p
                printf "  refused  %d begin Nothing\n", p
                printf "  next     %d receive #%d\n", p, p
            }
        }' >"$folder/wanted"
    check_long 'a long state' "$folder/wanted" "$tool" state

    printf 'members 1\n' >"$folder/input"
    yes report | head -n 1000 >>"$folder/input"
    { echo ok && yes "report $(echo 'members 1' | "$tool" record | "$tool" report)" | head -n 1000; } >"$folder/wanted"
    check_long 'many reports' "$folder/wanted" "$tool" interact

    record 1 "$count" 0 "$(seq -f '["receive",1,%.0f]' "$count" | paste -sd ,)" >"$folder/input"
    seq "$count" | awk -v count="$count" 'BEGIN {
            printf "{\"group\":1,\"majority\":1,\"cells\":4,\"batch\":1048560,\"steps\":%d,\"sent\":%d,\"posted\":0,", 2 * count, count
            printf "\"members\":[{\"member\":1,\"up\":true,\"instance\":0,\"open\":false,\"received\":["
        } { printf "%s\"1.%d\"", (NR == 1 ? "" : ","), $1 } END {
            printf "],\"decided\":[],\"delivered\":[],\"table\":[0,0,0,0,0,0,0,0,0,0,0,0,0,0,0,0]}]}\n"
        }' >"$folder/wanted"
    check_long 'a long report' "$folder/wanted" "$tool" report
}

# has_lines FILE WORDS..: whether the diagram of the input has the lines of FILE, in their order.
has_lines() { "$tool" diagram "${@:2}" <"$folder/input" | grep -Fxf "$1" | cmp -s - "$1"; }

# notes_outside: the notes of a diagram that pass its edges, where a letter is 4.3 units wide; or that there are none.
notes_outside() {
    awk -F "'" '/^<svg / { wide = $4 }
        /^<text class=.note/ { notes++; reach = 4.3 * (length($NF) - length("></text>")); if ($2 == "note" ? $4 + reach > wide : $4 < reach) print $NF }
        END { if (!notes) print "none is there" }'
}

# check_drawn: diagrams have these lines, and of members or kinds of steps that are not asked for nothing; notes stay inside.
check_drawn() {
    local wrong='' drawn
    record 1 1 0 '["receive",1,1]' >"$folder/input"
    has_lines drawn.svg --columns 4 || wrong+=" two steps are drawn otherwise;"
    record 2 1 0 '["receive",2,2],["lose",1,1],["receive",2,4]' >"$folder/input"
    has_lines drawn_in_rows.svg --from 2 --to 9 --columns 1 || wrong+=" rows are drawn otherwise;"
    drawn=$("$tool" diagram --member 1 <"$folder/input")
    [[ $drawn == *'step 3, member 1'* && $drawn == *'sent by 1 to 2'* ]] || wrong+=" a member's steps are missing;"
    [[ $drawn != *'step 4, member 2'* && $drawn != *'sent by 2 to 2'* ]] || wrong+=" another member's steps are there;"
    drawn=$("$tool" diagram --only consensus <"$folder/input")
    [[ $drawn == *'member 2'* && $drawn != *'<title>'* ]] || wrong+=" steps of messages are there;"
    record 2 1 0 '["receive",1,1],["receive",2,2],["receive",2,4],["receive",1,3]' >"$folder/input"
    "$tool" diagram --member 2 <"$folder/input" | grep -q "^<path class='data late' .*<title>#3 data 1.1, sent by 2 to 1 in step 3;" ||
        wrong+=" an arrow to a member that is left out is not pale, though its receipt changes nothing;"
    "$tool" walk --members 5 --seed 2 --turns 400 --rate 32 --crash 2 >"$folder/input"
    drawn=$("$tool" diagram --to 300 <"$folder/input" | notes_outside)
    [[ $drawn == '' ]] || wrong+=" notes are cut off: $drawn;"
    tally 'drawn lines' "$wrong"
}

# check_stopped: no more trials are made than asked for, and it is told that some lines may be left over.
check_stopped() {
    local wrong='' told steps='["postpone",1,1],["receive",1,1],["begin",1],["enter",1],["receive",1,3],["choose",1,1],'
    steps+='["receive",1,4],["adopt",1],["receive",1,5],["conclude",1],["receive",1,6],["deliver",1]'
    record 1 2 0 "$steps" >"$folder/input"
    told=$("$tool" shrink --goal 'any decided 1' --tries 3 <"$folder/input" 2>&1 >"$folder/output")
    [[ $told =~ ^of\ 14\ steps\ 1[234]\ are\ left\;\ stopped\ after\ 3\ trials$ ]] || wrong=" '$told'"
    tally 'trials that stop' "$wrong"
}

# check_json: what is shown as JSON fits its schema and tells what the lines tell, of the examples, of some walks and of refused
# steps of each kind.
check_json() {
    local wrong='' seed
    for seed in {1..5}; do
        "$tool" walk --members 3 --seed "$seed" --turns 60 --submit 12 --lose 10 --repeat 20 --postpone 10 --crash 2 >"$folder/walk$seed" &&
            "$tool" walk --members 5 --seed "$seed" --turns 40 --rate 128 --batch 1 >"$folder/quick$seed" ||
            wrong+=" no walk of seed $seed;"
    done
    record 1 1 0 '["receive",1,1],["receive",1,1]' >"$folder/not_waiting"
    record 2 1 0 '["repeat",1,2]' >"$folder/not_sent"
    record 2 1 0 '["postpone",2,9]' >"$folder/no_envelope"
    record 2 1 0 '["repeat",1,1]' >"$folder/still_waiting"
    record 1 1 0 '["enter",1]' >"$folder/idle"
    record 1 1 0 '["receive",1,1],["begin",1],["enter",1],["receive",1,2],["conclude",1]' >"$folder/wrong_phase"
    record 1 1 0 '["choose",0,255]' >"$folder/no_member"
    record 1 1 0 '["submit",1,["copy",16,255]]' >"$folder/bad_command"
    timeout -k 5 60 python3 json_lines.py "$tool" suspicion.json ../examples/*.json "$folder"/{walk,quick}[1-5] \
        "$folder"/{not_waiting,not_sent,no_envelope,still_waiting,idle,wrong_phase,no_member,bad_command} >"$folder/output" 2>&1 ||
        wrong+=" $(start_of "$folder/output");"
    tally 'steps and states as JSON' "$wrong"
}

# check_by FILE NAME SECONDS WORDS..: the cases of a program in Python, whose last line says how many passed.
check_by() {
    local file=$1 name=$2 seconds=$3 ended
    shift 3
    ended=$(PYTHONDONTWRITEBYTECODE=1 timeout -k 5 "$seconds" python3 "$file" "$@" 2>"$folder/error" | tee "$folder/output" | tail -n 1)
    if [[ $ended =~ ^([1-9][0-9]*)\ passed,\ ([0-9]+)\ failed$ ]]; then
        passed=$((passed + BASH_REMATCH[1]))
        failed=$((failed + BASH_REMATCH[2]))
        head -n -1 "$folder/output"
    else
        failed=$((failed + 1))
        echo "FAILED $name: '$(start_of "$folder/error")'"
    fi
}

# check_table FILE: the cases of a table.
check_table() {
    local line fields
    while IFS= read -r line <&9; do
        [[ -n $line && $line != \#* ]] || continue
        fields=()
        while [[ ${#fields[@]} -lt 5 && $line == *'|'* ]]; do
            trim "${line%%|*}"
            fields+=("$trimmed")
            line=${line#*|}
        done
        trim "$line"
        if [[ ${#fields[@]} -ne 5 ]]; then
            failed=$((failed + 1))
            echo "FAILED a line of $1 has too few fields: $line"
            continue
        fi
        check "${fields[@]}" "$trimmed"
    done 9<"$1"
}

program=$tool
if [[ -n $only ]]; then
    check_table <(grep -v '@closed' tool_table.txt)
    echo "$passed passed, $failed failed"
    exit $((failed > 0))
fi
check_pages
check_widths
check_completions

check_table tool_table.txt
check_walks
check_kept
check_long_texts
check_drawn
check_stopped
check_json
program=$ct
check_table table.txt

for record in ../examples/*.json; do
    name=${record%.json}
    if [[ -e $name.report ]]; then
        check "$name" replay 0 "@$name.report" '' "@$record"
    else
        { read -r fault && read -r _ status; } <"$name.fault"
        check "$name" replay "$status" '' "$fault" "@$record"
    fi
done

for schedule in ../examples/*.schedule; do
    check_schedule "${schedule%.schedule}"
done
for record in ../examples/*.json; do
    [[ -e ${record%.json}.fault ]] || check_written "$record" "$record"
done
check_written_walks
for record in ../examples/*.json; do
    check_completed "$record"
done
for schedule in ../examples/python/*.schedule; do
    check_log "${schedule%.schedule}"
done
check_rehearsal --runs 5
check_rehearsal --runs 5 --members 5 --crash 2 --turns 1500
check_rehearsal --members 1
with_output @unread python3 ../examples/python/broadcast.py 2>"$folder/error"
tally 'a log that nobody reads' "$(start_of "$folder/error")"

check_by sessions.py sessions 60 "$tool"
check_by logs.py logs 600 "$tool"
check_by orders.py orders 300 "$tool"
check_by enact.py 'schedules of logs' 300 "$tool"
check_by goals.py goals 600 "$tool"
check_by finish.py 'runs finished otherwise' 300 "$tool"
check_by search.py search 600 "$tool"
check_by terminal.py terminal 300 "$tool"
check_by waiting.py 'lines where much waits' 300 "$ct" "$tool"
command -v etcd >/dev/null && check_by systems.py 'orders of real systems' 1800 "$tool"

check_free_runs 'free runs'
check_free_runs 'lossy free runs' --lose 20 --repeat 40 --batch 1
check_free detectors
check_free postpone
check_free lossy

check_by blocks.py 'blocks of the documents' 1500 "$ct" "$tool"

# Memory refused at different places: at the start, while reading, while replaying.
record 3 60000 0 >"$folder/long"
"$ct" replay <"$folder/long" >"$folder/long_report"
refused=0
for kibibytes in 6000 8000 12000 16000 20000 24000 28000 32000 40000 64000; do
    check_memory "$kibibytes"
done
if [[ $refused == 0 ]]; then
    failed=$((failed + 1))
    echo "FAILED memory: it was never refused"
fi

echo "$passed passed, $failed failed"
[[ $failed -eq 0 ]]
