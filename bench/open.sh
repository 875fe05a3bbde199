#!/usr/bin/env bash
# Times how a kernel opens, and measures what it makes resident, for the machine of the defaults and for the
# greatest one. Prints microseconds and MiB. It needs GNU time (Debian: time).
set -eu
cd "$(dirname "$0")/.."
(cd crates/osc_bench && rt run -- open 1 >/dev/null)
resident() {
    /usr/bin/time -f %M crates/osc_bench/out/osc_bench "$1" "$2" 2>&1 >/dev/null
}
for machine in open open-greatest; do
    start=$(date +%s%N)
    crates/osc_bench/out/osc_bench "$machine" 20 >/dev/null
    end=$(date +%s%N)
    none=$(resident "$machine" 0)
    one=$(resident "$machine" 1)
    echo "$machine: $(((end - start) / 20000)) microseconds, $(((one - none) / 1024)) MiB resident"
done
