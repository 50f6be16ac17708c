#!/usr/bin/env bash
# Tests of the bindings: that worlds and sessions answer the same in every language, which is what `ct_tool` answers over a pipe, that
# walks make the records of `ct_tool walk` and shrinkers leave those of `ct_tool shrink`, that numbers and names are those of the crate, and
# what the library and the wrappers do with wrong calls, with memory that is refused, and with thousands of handles.
#
#     bindings/test.sh [CT_TOOL]
#
# CT_TOOL: the built program; crates/ct_tool/out/ct_tool if left out. bindings/build.sh has made the libraries before, page/build.sh the
# modules. Needs cc, cargo and python3, and installs nothing: what needs go, node, tsc, pip, C++, mypy or pytest is left out, and told,
# where they aren't there; with the variable NOTHING_LEFT_OUT it counts as failed. The variable LINES_TOLD gives another number of lines
# than 200,000, DRIVE_SEEDS another number of schedules of each right member than 25. Ends with a line `N passed, M failed`, and status 1
# where something failed.
set -u

here=$(cd "$(dirname "$0")" && pwd)
tool=$(realpath "${1:-$here/../crates/ct_tool/out/ct_tool}")
lines=${LINES_TOLD:-200000}
cd "$here" || exit 2
for it in "$tool" out/libct.a out/libct.so node/out/ct.wasm; do
    [[ -e $it ]] || { echo "bindings/test.sh: no $it" >&2; exit 2; }
done
folder=$(mktemp -d)
trap 'rm -rf "$folder"' EXIT
export CT_TOOL=$tool PYTHONPATH=$here/python PYTHONDONTWRITEBYTECODE=1 CARGO_TARGET_DIR=$here/rust/target
passed=0
failed=0

# check NAME COMMAND..: the command ends with status 0.
check() {
    local name=$1
    shift
    if "$@" >"$folder/output" 2>"$folder/error"; then
        passed=$((passed + 1))
    else
        failed=$((failed + 1))
        echo "FAILED $name: $(tail -n 3 "$folder/output" | cut -c 1-300) $(tail -n 5 "$folder/error" | cut -c 1-300)"
    fi
}

# left_out NAME WHAT: it is told that something can't run.
left_out() {
    echo "left out, as there is no $1: $2"
    [[ -z ${NOTHING_LEFT_OUT-} ]] || failed=$((failed + 1))
    return 1
}

# has NAME WHAT: whether there is such a program. imports NAME WHAT: whether Python has such a module.
has() { command -v "$1" >/dev/null || left_out "$@"; }
imports() { python3 -c "import $1" 2>/dev/null || left_out "$@"; }

# build NAME SOURCE FLAG..: the program of a file in C.
build() {
    local name=$1 source=$2
    shift 2
    cc -std=c11 -D_GNU_SOURCE -O2 -g -Wall -Wextra -Werror -I. "$source" "$@" out/libct.a -lpthread -o "$folder/$name"
}

# gives WANTED COMMAND..: the command prints what the file has.
gives() {
    local wanted=$1
    shift
    "$@" >"$folder/given" && cmp "$wanted" "$folder/given"
}

# bounded COMMAND..: the command has no more than 32 MB at any time. Half of 10,000 worlds, or sessions, take as much.
bounded() {
    python3 -c 'import resource, subprocess, sys
done = subprocess.run(sys.argv[1:])
most = resource.getrusage(resource.RUSAGE_CHILDREN).ru_maxrss
print(f"{most} KB at most")
sys.exit(done.returncode or most > 32_000)' "$@"
}

# same LANGUAGE COMMAND..: it answers as over a pipe, and gives back what it kept.
names=()
bound=(bounded)
same() {
    local language=$1
    shift
    names+=("$* names")
    check "worlds, in $language" gives "$folder/worlds_answered" "$@" worlds "$folder/worlds_asked"
    check "walks, in $language" gives "$folder/walks_answered" "$@" walks "$folder/walks_asked"
    check "smaller runs, in $language" gives "$folder/shrinks_answered" "$@" shrinks "$folder/shrinks_asked"
    if [[ $language != C ]]; then
        check "sessions, in $language" gives "$folder/sessions_answered" "$@" sessions "$folder/sessions_asked"
        check "10,000 worlds and sessions, in $language" "${bound[@]}" "$@" many 10000
    fi
}

# over_pipe WHAT: what is answered there.
over_pipe() { CT_LIB='' python3 python/tests/asked.py "$1" "$folder/$1_asked" >"$folder/$1_answered"; }

# The libraries define what the header declares, and nothing else; they need the heap and three functions for bytes.
exports() {
    sed -n 's/^[a-z].*[ *]\(ct_[a-z_]*\)(.*/\1/p' ct.h | sort -u >"$folder/declared"
    nm -D --defined-only out/libct.so | awk '{ print $3 }' | sort | cmp - "$folder/declared" &&
        nm -g --defined-only out/libct.a | awk 'NF == 3 { print $3 }' | sort | cmp - "$folder/declared" &&
        [[ -s $folder/declared ]] &&
        ! nm -u out/libct.a | awk 'NF == 2 { print $2 }' | grep -vxE 'malloc|realloc|free|memcpy|memmove|memset'
}

# header LANGUAGE: the header stands alone there.
header() {
    echo '#include "ct.h"' >"$folder/header.c"
    cc -std="$1" -x "${1%[0-9][0-9]}" -pedantic -Wall -Wextra -Werror -I. -fsyntax-only "$folder/header.c"
}

# A compiler tells a null pointer.
nulls() {
    printf '#include "ct.h"\nvoid f(void) { ct_world_close(0); }\n' >"$folder/null.c"
    ! cc -Werror=nonnull -I. -fsyntax-only "$folder/null.c"
}

example() {
    build example c/example.c && "$folder/example" >"$folder/given" &&
        printf 'member 1 delivered 1.1 3.1\nmember 2 delivered\nmember 3 delivered 1.1 3.1\n' | cmp - "$folder/given"
}

asan=(-fsanitize=address,undefined -fno-sanitize-recover=all)
export ASAN_OPTIONS=detect_leaks=1

check 'what the libraries define' exports
check 'the header in C' header c11
has g++ 'the header in C++' && check 'the header in C++' header c++11
check 'a null pointer is told' nulls
check 'the example in C' example
check 'building calls' build calls tests/calls.c "${asan[@]}"
check 'calls' "$folder/calls"
check 'building handles' build handles tests/handles.c
check '20,000 handles' "$folder/handles"
check 'building handles for ASan' build handles_asan tests/handles.c "${asan[@]}"
check '20,000 handles under ASan' "$folder/handles_asan"
check 'building refused' build refused tests/refused.c -Wl,--wrap=malloc,--wrap=realloc,--wrap=free
check 'each allocation refused in turn' "$folder/refused"

check 'what is asked' python3 tests/asking.py "$folder"
check 'walks of ct_tool' python3 tests/walking.py "$tool" "$folder"
check 'smaller runs of ct_tool' python3 tests/shrinking.py "$tool" "$folder"
check 'worlds, over a pipe' over_pipe worlds
check 'sessions, over a pipe' over_pipe sessions
check 'building asked' build asked tests/asked.c "${asan[@]}"
same C "$folder/asked"

check 'inputs' python3 tests/inputs.py "$tool" "$folder" --steps "$lines" --lossy
"$tool" interact <"$folder/lines_told" >"$folder/answers"
check 'as many answers as lines' cmp <(wc -l <"$folder/lines_told") <(wc -l <"$folder/answers")
check 'building lines and steps' build lines tests/lines.c
check 'building lines and steps' build steps tests/steps.c
check 'lines, in C' gives "$folder/answers" "$folder/lines" "$folder/lines_told"
check 'steps, in C' gives "$folder/record.json" "$folder/steps" "$folder/steps_taken"

if has cargo 'Rust'; then
    cd rust || exit 2
    check 'tests and doctests in Rust' cargo test --offline --quiet
    check 'building examples in Rust' cargo build --offline --quiet --release --examples
    check 'lines, in Rust' gives "$folder/answers" target/release/examples/lines "$folder/lines_told"
    check 'lines at once, in Rust' gives "$folder/answers" target/release/examples/lines "$folder/lines_told" once
    check 'steps, in Rust' gives "$folder/record.json" target/release/examples/steps "$folder/steps_taken"
    cd ..
    same Rust rust/target/release/examples/asked
else
    failed=$((failed + 1))
fi

python=(python3 -m unittest discover -s python/tests)
imports pytest 'tests in Python by pytest' && python=(python3 -m pytest -q -p no:cacheprovider python/tests)
same Python python3 python/tests/asked.py
check 'lines, in Python' gives "$folder/answers" python3 python/tests/lines.py "$folder/lines_told"
check 'lines at once, in Python' gives "$folder/answers" python3 python/tests/lines.py "$folder/lines_told" once
check 'steps, in Python' gives "$folder/record.json" python3 python/tests/steps.py "$folder/steps_taken"
has mypy 'types in Python' && check 'types in Python' mypy --strict --cache-dir "$folder/types" python/malletochre python/tests
check 'tests in Python' "${python[@]}"
check 'tests in Python over ct_tool' env CT_LIB= "${python[@]}"

# installed SITE PLACE WORD..: the package, installed there without a network by these words, lies in this place, works from elsewhere, has
# the library, and says what it is.
installed() {
    local site=$1 place=$2
    shift 2
    python3 -m pip install --quiet --no-index --no-compile --target "$site" "$@" ./python &&
        (cd "$folder" && env -u CT_TOOL -u PYTHONPATH python3 -c 'import site, sys
site.addsitedir(sys.argv[1])
import malletochre as it
assert it.IN_PROCESS and it.__file__.startswith(f"{sys.argv[2]}/malletochre/"), it.__file__
with it.World(1) as world:
    assert world.apply(it.Submit(1, it.Set(0, 7))) == range(1, 2)
from malletochre.drive.schedules import examples
assert len(list(examples(3, it.MAX_BOUND))) == 9' "$site" "$place") &&
        PYTHONPATH=$site python3 -m pip show malletochre >"$folder/shown" && grep -q '^Summary: A proved ' "$folder/shown"
}
imports pip 'the package, installed' && check 'the package, installed' installed "$folder/site" "$folder/site" &&
    check 'the package, in place' installed "$folder/editable" "$here/python" -e

if has go 'Go'; then
    check 'tests in Go' env -C go CT_STEPS="$folder/steps_taken" GOFLAGS=-count=1 go test ./...
    check 'faults in Go' env -C go go vet ./...
    check 'building asked in Go' env -C go go build -o "$folder/asked_in_go" ./asked
    same Go "$folder/asked_in_go"
    check 'lines, in Go' gives "$folder/answers" "$folder/asked_in_go" lines "$folder/lines_told"
fi

if has node 'node'; then
    bound=() # what the module keeps is bounded, and told there
    same node node --expose-gc node/tests/asked.js
    check 'lines, in node' gives "$folder/answers" node node/tests/asked.js lines "$folder/lines_told"
    check 'lines at once, in node' gives "$folder/answers" node node/tests/asked.js lines "$folder/lines_told" once
    has tsc 'types in node' && check 'types in node' tsc --strict --noEmit --target es2020 --moduleResolution node16 --module node16 \
        node/tests/types.ts
    check 'steps, in node' gives "$folder/record.json" node node/tests/asked.js steps "$folder/steps_taken"
    check 'shrinkers, in node' node node/tests/uses.js
fi

check 'numbers and names' python3 tests/names.py "${names[@]}"

echo "$passed passed, $failed failed"
[[ $failed -eq 0 ]]
