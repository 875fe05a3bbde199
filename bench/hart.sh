#!/usr/bin/env bash
# Times a hart in a loop of register instructions, loads and stores over a vector of words, without a
# kernel, and the decoding of instruction words. Prints steps and words per second.
set -eu
cd "$(dirname "$0")/.."
steps=${1:-50000000}
words=4194304
(cd crates/osc_bench && rt run -- hart 1 >/dev/null)
start=$(date +%s%N)
crates/osc_bench/out/osc_bench hart "$steps" >/dev/null
end=$(date +%s%N)
echo "hart: $((steps * 1000000000 / (end - start))) steps per second"
start=$(date +%s%N)
crates/osc_bench/out/osc_bench decode "$words" >/dev/null
end=$(date +%s%N)
echo "decode: $((words * 1000000000 / (end - start))) words per second"
