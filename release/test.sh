#!/usr/bin/env bash
# Tests what release/build.sh made as one who has no toolchain: in a system of its own, in a folder, without a network. It installs each
# package there by its language's own client, by the commands of README's section Without the toolchain, word for word, and compares what
# they print with what README says.
#
#     release/test.sh [DIST | --system]
#
# DIST: the folder; dist if left out. Wants root, debootstrap and the distribution's packages: the variable STRANGER names a folder in which
# the system stays, else one is made and taken away; with --system that is all that is done. Ends with a line `N passed, M failed`, and
# status 1 where something failed.
set -euo pipefail

here=$(cd "$(dirname "$0")" && pwd)
root=$(dirname "$here")
dist=$root/dist
[[ ${1:---system} == --system ]] || dist=$(realpath "$1")
[[ ${1:-} == --system || -e $dist/SHA256SUMS ]] || { echo "release/test.sh: no $dist/SHA256SUMS; run release/build.sh before" >&2; exit 2; }
[[ $(id -u) == 0 ]] || { echo 'release/test.sh: root alone makes a system in a folder' >&2; exit 2; }
packages=(gcc libc6-dev pkg-config python3 python3-venv cargo golang-go nodejs npm)
work=$(mktemp -d)
trap 'rm -rf "$work"' EXIT
system=${STRANGER:-$work/system}

made() {
    debootstrap --variant=minbase bookworm "$system" http://deb.debian.org/debian && chroot "$system" apt-get update &&
        DEBIAN_FRONTEND=noninteractive chroot "$system" apt-get install -y --no-install-recommends -o Dpkg::Options::=--force-unsafe-io \
            "${packages[@]}"
}
[[ -e $system/usr/bin/npm ]] || made >"$work/log" 2>&1 || { echo "release/test.sh: no system: $(tail -n 3 "$work/log")" >&2; exit 2; }
[[ ${1:-} != --system ]] || exit 0
home=$system/root/release
rm -rf "$home"
cp -r "$dist" "$home"

# README's commands, those behind each name, in one shell in the folder of the release.
sed -n '/^## Without the toolchain$/,/^Each of the five prints$/p' "$root/README.md" |
    sed -nE "s/^\*\*(.*)\*\*$/echo '== \1'/p; s/^    //p" | cat <(echo 'set -eu; cd /root/release') - >"$home/commands"

passed=0
failed=0
unshare --net --mount --pid --fork chroot "$system" /usr/bin/env -i HOME=/root PATH=/usr/bin:/bin \
    bash -c 'mount -t proc proc /proc && exec bash /root/release/commands' >"$work/said" 2>"$work/error" ||
    { failed=1; echo "FAILED behind $(grep '^==' "$work/said" | tail -n 1): $(tail -n 3 "$work/error")"; }

# check NAME WANTED: the block of this name said what the file has.
check() {
    sed -n "/^== $1\$/,/^== /{/^== /!p}" "$work/said" >"$work/of_one"
    if cmp "$2" "$work/of_one" >"$work/differs" 2>&1; then
        passed=$((passed + 1))
    else
        failed=$((failed + 1))
        echo "FAILED $1: $(<"$work/differs"): $(head -n 3 "$work/of_one")"
    fi
}

sed -n '/^Each of the five prints$/,/^## /s/^    //p' "$root/README.md" >"$work/wanted"
[[ -s $work/wanted ]] || { echo 'release/test.sh: README.md says no more what the five print' >&2; exit 2; }
for it in C Python Rust Go node; do check "$it" "$work/wanted"; done
"$root/crates/ct/out/ct" replay "$home/run.json" >"$work/report"
check 'The programs' "$work/report"
echo "$passed passed, $failed failed"
[[ $failed == 0 ]]
