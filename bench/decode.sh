#!/usr/bin/env bash
# Times the decoding of 4194304 instruction words, alone and with their encoding, and prints words
# per second.
set -eu
cd "$(dirname "$0")/.."
count=4194304
(cd crates/osc_bench && rt run -- decode 1 >/dev/null)
for part in decode encode; do
    start=$(date +%s%N)
    crates/osc_bench/out/osc_bench "$part" "$count" >/dev/null
    end=$(date +%s%N)
    echo "$part: $((count * 1000000000 / (end - start))) words per second"
done
