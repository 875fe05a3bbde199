#!/usr/bin/env bash
# Times pairs of place and release on a heap over 4096 frames, and prints pairs per second: blocks of
# every size class and of two pages with 512 held, blocks of 24 bytes with 512 and with 100,000 held, and
# blocks of 64 pages with 63 held. The time of the first placements is taken off.
set -eu
cd "$(dirname "$0")/.."
count=${1:-2000000}
whole=$((count / 20))
(cd crates/osc_bench && rt run -- heap 1 >/dev/null)
elapsed() {
    local start end
    start=$(date +%s%N)
    crates/osc_bench/out/osc_bench "$1" "$2" >/dev/null
    end=$(date +%s%N)
    echo $((end - start))
}
rate() {
    local first all
    first=$(elapsed "$1" "$2")
    all=$(elapsed "$1" $(($2 + $3)))
    echo "$1 with $2 held: $(($3 * 1000000000 / (all - first))) pairs per second"
}
rate heap 512 "$count"
rate heap-small 512 "$count"
rate heap-many 100000 "$count"
rate heap-whole 63 "$whole"
