#!/usr/bin/env bash
# Times pairs of map and unmap in the tables of one process: 65536 pages are mapped in ascending order and
# then unmapped, the latest or the oldest first. Prints pairs per second.
set -eu
cd "$(dirname "$0")/.."
rounds=${1:-10}
count=$((rounds * 65536))
(cd crates/osc_bench && rt run -- tables-latest 0 >/dev/null)
for part in tables-latest tables-oldest; do
    start=$(date +%s%N)
    crates/osc_bench/out/osc_bench "$part" "$count" >/dev/null
    end=$(date +%s%N)
    echo "$part: $((count * 1000000000 / (end - start))) pairs per second"
done
