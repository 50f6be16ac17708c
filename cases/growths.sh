#!/usr/bin/env bash
# Runs the built programs `ct`, `ct_growths` and `ct_tool` while calls for memory are refused: the first alone, the second
# alone, and so on until a run makes fewer calls than that; with `ct` also each N-th.
#
#     cases/growths.sh [CT [CT_GROWTHS [CT_TOOL]]]     the built programs; those of ../crates/*/out if left out
#
# A run must end as it does with ample memory, or say what was refused and write nothing. Prints a line for each run that
# doesn't, what all runs came to, and last `N passed, M failed`; its status is 0 only where none failed. The calls are
# refused by refuse.c, which needs cc. Needs bash 4.4.
set -u
export LC_ALL=C

# The calls that a run may make at most.
most=20000

here=$(cd "$(dirname "$0")" && pwd)
ct=$(realpath "${1:-$here/../crates/ct/out/ct}")
memory=$(realpath "${2:-$here/../crates/ct_growths/out/ct_growths}")
tool=$(realpath "${3:-$here/../crates/ct_tool/out/ct_tool}")
for program in "$ct" "$memory" "$tool"; do
    if [[ ! -x $program || -d $program ]]; then
        echo "cases/growths.sh: no program at $program" >&2
        exit 2
    fi
done
cd "$here" || exit 2
folder=$(mktemp -d)
trap 'rm -rf "$folder"' EXIT
if ! cc -shared -fPIC -O2 -o "$folder/refuse.so" refuse.c; then
    echo "FAILED: cc doesn't build refuse.c"
    echo "0 passed, 1 failed"
    exit 1
fi
passed=0
failed=0
declare -A seen=()

# start_of FILE: its first bytes on one line.
start_of() { head -c 120 "$1" | tr '\n' ' '; }

# fail TEXT: prints and counts a failure.
fail() {
    failed=$((failed + 1))
    echo "FAILED $1: status $status; output '$(start_of "$folder/output")'; error '$(start_of "$folder/error")'"
}

# with_refusals N EACH COMMAND..: runs the command on the input with its N-th call refused, and with EACH each N-th.
# Whether a call was refused.
with_refusals() {
    local words=("REFUSE_CALL=$1" "REFUSE_TOLD=$folder/told" "LD_PRELOAD=$folder/refuse.so")
    [[ -z $2 ]] || words+=("REFUSE_EACH=1")
    : >"$folder/told"
    timeout -k 5 20 env "${words[@]}" "${@:3}" <"$folder/input" >"$folder/output" 2>"$folder/error"
    status=$?
    [[ -s $folder/told ]]
}

# says TEXT..: whether the error is one of these lines.
says() {
    local line
    line=$(<"$folder/error")
    for text; do
        [[ $line != "$text" ]] || return 0
    done
    return 1
}

# is_refusal: whether the run wrote nothing and says that memory was refused; where that was in clap's parse of the words,
# in clap's way.
is_refusal() {
    [[ ! -s $folder/output ]] || return 1
    case $status in
    5) says 'out of memory' ;;
    3) says 'error: out of memory' ;;
    *) return 1 ;;
    esac
}

# is_whole: whether the run ended as it does with ample memory.
is_whole() {
    [[ $status == "$whole_status" ]] && cmp -s "$folder/whole" "$folder/output" &&
        cmp -s "$folder/whole_error" "$folder/error"
}

# is_free: whether the run wrote a record that is replayed, or says that a thread could not be started.
is_free() {
    case $status in
    0) [[ ! -s $folder/error ]] && "$ct" replay <"$folder/output" >"$folder/replayed" 2>&1 ;;
    5) [[ ! -s $folder/output ]] && says 'no thread' ;;
    *) return 1 ;;
    esac
}

# is_tried: whether the run wrote the report $wanted, which of its steps was refused and done at the second try, and what
# the free run came to. Both are remembered.
is_tried() {
    local lines
    mapfile -t lines <"$folder/output"
    [[ $status == 0 && ! -s $folder/error && ${#lines[@]} == 19 ]] || return 1
    head -n 17 "$folder/output" | cmp -s "$wanted" - || return 1
    [[ ${lines[17]} =~ ^refused\ at\ step\ [0-9]+$ ]] || return 1
    [[ ${lines[18]} =~ ^free\ run:\ (13 steps, [01] refused|Memory|Start)$ ]] || return 1
    seen[${lines[17]}]=1
    seen[${lines[18]}]=1
}

# begins_whole: whether the output is some first lines of the one with ample memory, or all of it.
begins_whole() {
    head -n "$(wc -l <"$folder/output")" "$folder/whole" | cmp -s - "$folder/output"
}

# is_session: whether the run ended as it does with ample memory, or gave some first answers and says that memory was refused.
is_session() {
    is_whole && return
    [[ $status == 5 ]] && says 'out of memory' && begins_whole || return 1
    refusals=$((refusals + 1))
}

# is_checked: whether the run ended as it does with ample memory, or wrote that memory was refused behind the file's name.
is_checked() {
    is_whole && return
    [[ $status == 5 && ! -s $folder/error && $(<"$folder/output") == *.json': out of memory' ]] || return 1
    refusals=$((refusals + 1))
}

# judge NAME IS_GOOD: counts the run, which must be good, or a refusal.
judge() {
    runs=$((runs + 1))
    if "$2"; then
        passed=$((passed + 1))
    elif is_refusal; then
        passed=$((passed + 1))
        refusals=$((refusals + 1))
    else
        fail "$1"
    fi
}

# each_call NAME IS_GOOD EACH COMMAND..: the command with one call refused (with EACH each multiple of it), from the first
# on, until none is.
each_call() {
    local n
    for ((n = 1; n <= most; n++)); do
        if ! with_refusals "$n" "$3" "${@:4}"; then
            "$2" || fail "$1 with no call refused"
            return
        fi
        judge "$1, call $n${3:+ and its multiples}" "$2"
    done
    fail "$1 makes more than $most calls"
}

# tool_calls IS_GOOD INPUT WORDS..: runs ct_tool with these words on that file.
tool_calls() {
    cp "$2" "$folder/input"
    "$tool" "${@:3}" <"$folder/input" >"$folder/whole" 2>"$folder/whole_error"
    whole_status=$?
    each_call "ct_tool ${*:3}" "$1" '' "$tool" "${@:3}"
    tell "ct_tool ${*:3}"
}

# tell NAME: what the runs of the program came to.
tell() {
    echo "$1: $runs runs, of which $refusals ended for want of memory"
    [[ $refusals -gt 0 ]] || fail "$1: no run was refused"
    runs=0
    refusals=0
}

runs=0
refusals=0

# replay_of RECORD EACH: replays the record.
replay_of() {
    cp "$1" "$folder/input"
    "$ct" replay <"$folder/input" >"$folder/whole" 2>"$folder/whole_error"
    whole_status=$?
    each_call "replay of $1" is_whole "$2" "$ct" replay
}

# A worked record, two long ones, one of a lossy network, one with followers, one whose fifth step is refused, and one that
# is none.
for name in coordinator_crashes five_members lost_and_repeated followers second_receipt_is_refused; do
    replay_of "../examples/$name.json" ''
done
for record in ../crates/ct/stdin /dev/null; do
    replay_of "$record" ''
done
replay_of ../crates/ct/stdin each

# Two of them with a space behind each comma and colon, with each name and number on a line of its own, and with their steps
# before all else, so that these are kept.
spaced='print(json.dumps(record))'
lined='print(json.dumps(record, indent=2))'
first='print(json.dumps({"steps": record.pop("steps"), **record}, separators=(",", ":")))'
for name in five_members second_receipt_is_refused; do
    for written in "$spaced" "$lined" "$first"; do
        python3 -c "import json, sys; record = json.load(sys.stdin); $written" <"../examples/$name.json" >"$folder/written.json"
        replay_of "$folder/written.json" ''
    done
done
tell 'ct replay'

: >"$folder/input"
each_call 'free run' is_free '' "$ct" free --members 2 --turns 20 --submit 2 --cells 4 --rate 0
each_call 'free run' is_free each "$ct" free --members 2 --turns 20 --submit 2 --cells 4 --rate 0
tell 'ct free'

# The steps of a round are each refused at least once, and the free run ends in each of its ways.
wanted=decided.report
cp ../crates/ct_growths/stdin "$folder/input"
each_call 'ct_growths' is_tried '' "$memory"
tell 'ct_growths'
for n in {0..22}; do
    [[ -n ${seen["refused at step $n"]:-} ]] || fail "ct_growths: step $n was never refused"
done
for text in '13 steps, 0 refused' '13 steps, 1 refused' Memory Start; do
    [[ -n ${seen["free run: $text"]:-} ]] || fail "ct_growths: no free run ended so: $text"
done

# So are two that follow, the second of which posts its batch.
seen=()
wanted=../examples/followers.report
cp ../examples/followers.json "$folder/input"
each_call 'ct_growths with followers' is_tried '' "$memory"
tell 'ct_growths with followers'
for n in 47 70; do
    [[ -n ${seen["refused at step $n"]:-} ]] || fail "ct_growths: step $n, which follows, was never refused"
done

# Each subcommand of the tool. A session gives its answers one by one, and a check tells a record's fault behind its name.
for words in complete state report diagram steps schedule; do
    tool_calls is_whole suspicion.json "$words"
done
for words in state steps; do
    tool_calls is_whole suspicion.json "$words" --json
done
tool_calls is_whole ../examples/second_receipt_is_refused.json steps
tool_calls is_whole ../examples/coordinator_crashes.schedule record
tool_calls is_whole /dev/null walk --members 3 --turns 20 --submit 2
tool_calls is_session ../examples/coordinator_crashes.schedule interact --record "$folder/kept"
# Goals, in a schedule, a session and walks; a search by two threads; a run that is made smaller, whole and up to a bound.
printf '%s\n' 'members 1' '1 submit set 0 7' 'all turns until any decided 1 and never any crashed' \
    'expect ever any round >= 1 and any delivered count 0' >"$folder/goals.schedule"
tool_calls is_whole "$folder/goals.schedule" record
tool_calls is_session "$folder/goals.schedule" interact
printf '%s\n' 'members 2' '1 submit set 0 7' '2 lose data 1.1' 'all settle' 'expect any stuck' 'expect all settled' >"$folder/lost.schedule"
tool_calls is_whole "$folder/lost.schedule" record
tool_calls is_whole /dev/null walk --members 3 --turns 20 --submit 2 --until 'any round >= 2 and never any crashed'
tool_calls is_whole /dev/null walk --members 3 --turns 5 --until 'round 9'
tool_calls is_whole /dev/null find --members 3 --turns 20 --submit 2 --goal 'any round >= 2' --seeds 1..3 --jobs 2
tool_calls is_whole /dev/null find --members 1 --turns 5 --submit 1 --goal 'any crashed' --seeds 1..3 --jobs 2
tool_calls is_whole suspicion.json shrink --goal 'any suspects up'
tool_calls is_whole suspicion.json shrink --goal 'any suspects up' --record --tries 1
python3 ../bench/split.py "$folder/logs" <suspicion.json
tool_calls is_whole /dev/null merge "$folder"/logs/{1,2,3}.log
tool_calls is_whole /dev/null merge --record "$folder"/logs/{1,2,3}.log
tool_calls is_whole /dev/null merge --presume presumed/{1,2,3}.log
# Logs of any broadcast: accepted, with two that lack something, with two that are wrong, and as a schedule.
printf '%s\n' 'broadcast x' 'broadcast y' 'deliver x' 'deliver y' 'state s' end >"$folder/a.log"
printf '%s\n' 'deliver x' 'restart 0' '{"deliver":"x"}' 'deliver y' >"$folder/b.log"
printf '%s\n' 'deliver x' >"$folder/c.log"
printf '%s\n' 'deliver y' >"$folder/d.log"
printf '%s\n' state >"$folder/e.log"
tool_calls is_whole /dev/null order "$folder"/{a,b}.log
tool_calls is_whole /dev/null order --settled --fifo --all "$folder"/{a,c}.log
tool_calls is_whole /dev/null order --json --all "$folder"/{a,d,e}.log
tool_calls is_whole /dev/null order --follow "$folder"/a.log
tool_calls is_whole /dev/null order --schedule "$folder"/{a,b,c}.log
tool_calls is_checked /dev/null check suspicion.json
tool_calls is_checked /dev/null check --expect-reports ../examples/followers.json

echo "$passed passed, $failed failed"
[[ $failed -eq 0 ]]
