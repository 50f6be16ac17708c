#!/usr/bin/env bash
# Tests the page that page/build.sh made in page/out, in Chromium, from the disk, and what it does without a browser under node. It tells in
# what that of the last release, page/ct.html, is another one.
#
#     page/test.sh [CT CT_TOOL]
#
# CT, CT_TOOL: the built programs; those of crates/ if left out. Needs cc with ASan, python3, and Debian's chromium, chromium-driver and
# python3-selenium. SHOTS names a folder for screenshots, LINES_TOLD another number of lines than 200,000, ONLY tests of tests/browser.py
# that alone are run. Where firefox-esr is installed some of the tests run in it, too; else that is told. Ends with a line
# `N passed, M failed`, and status 1 where something failed.
set -u

here=$(cd "$(dirname "$0")" && pwd)
ct=$(realpath "${1:-$here/../crates/ct/out/ct}")
tool=$(realpath "${2:-$here/../crates/ct_tool/out/ct_tool}")
for it in "$ct" "$tool" "$here/out/ct.html" "$here/ct.html"; do
    [[ -e $it ]] || { echo "page/test.sh: no $it" >&2; exit 2; }
done
folder=$(mktemp -d)
trap 'rm -rf "$folder"' EXIT
export PYTHONDONTWRITEBYTECODE=1
failed=0
checks=0

# check NAME COMMAND..: the command ends with status 0.
check() {
    local name=$1
    shift
    checks=$((checks + 1))
    if "$@" >"$folder/output" 2>&1; then
        echo "ok $name"
    else
        failed=$((failed + 1))
        echo "FAILED $name: $(tail -n 5 "$folder/output" | cut -c 1-300)"
    fi
}

heap() {
    cc -std=c11 -O1 -g -Wall -Wextra -Werror -fsanitize=address,undefined -fno-sanitize-recover=all "$here/tests/heap.c" "$here/heap.c" \
        -o "$folder/heap" && "$folder/heap"
}

wide() {
    cc -std=gnu11 -O1 -Wall -Wextra -Werror -D__multi3=wide_product -D__ashlti3=wide_left -D__lshrti3=wide_right \
        "$here/tests/wide.c" "$here/wide.c" -o "$folder/wide" && "$folder/wide"
}

check 'the heap under ASan' heap
check 'numbers of 128 bits' wide
check 'the page without a browser' node --test "$here/tests/run.test.js"
(cd "$here/.." && python3 page/assemble.py --differ page/ct.html page/out/ct.html)
check 'lines' python3 "$here/../bindings/tests/inputs.py" "$tool" "$folder" --steps "${LINES_TOLD:-200000}" --lossy
# Debian's packages are of Debian's Python.
python=python3
python3 -c 'import selenium' 2>/dev/null || python=/usr/bin/python3
tests=("$python" "$here/tests/browser.py" "$here/out/ct.html" "$ct" "$tool" "$folder")
"${tests[@]}" ${SHOTS:+"$SHOTS"} | tee "$folder/browser"
if ! command -v firefox-esr >/dev/null; then
    echo 'left out, as there is no firefox-esr: the page in Firefox'
elif [[ -z ${ONLY-} ]]; then
    check 'the page in Firefox' env BROWSER=firefox "${tests[@]}"
fi
passed=$(sed -n 's/^\([0-9]*\) passed.*/\1/p' "$folder/browser")
missed=$(sed -n 's/.* \([0-9]*\) failed$/\1/p' "$folder/browser")
failed=$((failed + ${missed:-1}))
echo "$((${passed:-0} + checks - failed + ${missed:-1})) passed, $failed failed"
[[ $failed == 0 ]]
