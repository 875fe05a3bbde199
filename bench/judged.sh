#!/usr/bin/env bash
# Times the built program in mode object beside mode seed: a computing guest, and pairs of malloc and free.
# Prints steps a second of both, and the line that mode object adds. It is no test.
set -eu
cd "$(dirname "$0")/.."
program=${1:-crates/oscar/out/oscar}
[ -x "$program" ] || { echo "judged: $program is not there: rt ci or ./prove builds it"; exit 1; }
work=$(mktemp -d)
trap 'rm -rf "$work"' EXIT
room=(--harts 1 --frames 4096 --shadows 1048576 --journal 1048576 --picks 100000000000)

# rate MODE IMAGE: leaves steps a second in `rate`
rate() {
    local start end picks
    start=$(date +%s%N)
    "$program" "${room[@]}" --mode "$1" < "$2" > "$work/out" 2> "$work/err" || { cat "$work/err"; exit 1; }
    end=$(date +%s%N)
    picks=$(sed -n 's/^run: picks \([0-9]*\) .*/\1/p' "$work/err")
    rate=$((picks * 1000000000 / (end - start)))
}

for image in compute pairs_10_few; do
    rate seed "bench/$image.elf"
    plain=$rate
    rate object "bench/$image.elf"
    echo "$image: $rate steps a second judged, $plain in mode seed; $(tail -n 1 "$work/err")"
done
