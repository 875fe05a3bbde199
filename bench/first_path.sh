#!/usr/bin/env bash
# Times the built program on a file of 16 MiB, which is read and refused, and on as much as it runs
# of a guest that never ends. It prints both and is no test.
set -eu
cd "$(dirname "$0")/.."
[ -x crates/oscar/out/oscar ] || ./prove
program=crates/oscar/out/oscar
work=$(mktemp -d)
trap 'rm -rf "$work"' EXIT
head -c 16777216 /dev/zero > "$work/long"
timed() {
    local start end
    start=$(date +%s%N)
    "$program" < "$2" > /dev/null 2> "$work/err" || true
    end=$(date +%s%N)
    echo "$1: $(((end - start) / 1000000)) ms ($(cat "$work/err"))"
}
timed "16 MiB read" "$work/long"
timed "a guest that never ends" bench/endless.elf
