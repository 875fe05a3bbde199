#!/usr/bin/env bash
# Times pairs of take and give of a frame: all 4096 frames of a machine are taken, and then all are given
# back. Prints pairs per second.
set -eu
cd "$(dirname "$0")/.."
rounds=${1:-2500}
count=$((rounds * 4096))
(cd crates/osc_bench && rt run -- frames 0 >/dev/null)
start=$(date +%s%N)
crates/osc_bench/out/osc_bench frames "$count" >/dev/null
end=$(date +%s%N)
echo "frames: $((count * 1000000000 / (end - start))) pairs per second"
