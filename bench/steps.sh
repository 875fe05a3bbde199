#!/usr/bin/env bash
# Times the built program by steps of the machine: a computing guest, on one hart and on four, and pairs of
# malloc and free with 10 and with 100,000 other objects alive. A step is one of the summary's picks. Beside
# it stands qemu-riscv64, which translates one instruction at a time, on the computing guest's source with
# Linux's calls, where qemu (Debian's qemu-user) and the compiler are installed. It prints and is no test.
set -eu
cd "$(dirname "$0")/.."
program=${1:-crates/oscar/out/oscar}
[ -x "$program" ] || { echo "steps: $program is not there: rt ci or ./prove builds it"; exit 1; }
work=$(mktemp -d)
trap 'rm -rf "$work"' EXIT
room=(--frames 4096 --shadows 1048576 --journal 1048576 --picks 100000000000)

# timed INPUT COMMAND..: leaves the least time of three runs in `time`, in microseconds
timed() {
    local input=$1 start end
    shift
    time=
    for _ in 1 2 3; do
        start=$(date +%s%N)
        "$@" < "$input" > "$work/out" 2> "$work/err" || { cat "$work/err"; exit 1; }
        end=$(date +%s%N)
        if [ -z "$time" ] || [ $(((end - start) / 1000)) -lt "$time" ]; then
            time=$(((end - start) / 1000))
        fi
    done
}

# run_image IMAGE WORD..: the same for the program, and leaves `picks` and `retired`
run_image() {
    local image=$1
    shift
    timed "$image" "$program" "${room[@]}" "$@"
    picks=$(sed -n 's/^run: picks \([0-9]*\) .*/\1/p' "$work/err")
    retired=$(sed -n 's/^run: .* retired \([0-9]*\) .*/\1/p' "$work/err")
}

for harts in 1 4; do
    run_image bench/compute.elf --harts "$harts"
    echo "compute, $harts harts: $((picks / time)) million steps, $((retired * 10 / time / 10)).$((retired * 10 / time % 10)) million instructions a second"
done
for live in 10 100000; do
    run_image "bench/pairs_${live}_few.elf" --harts 1
    few_time=$time
    few_picks=$picks
    run_image "bench/pairs_${live}_many.elf" --harts 1
    pair=$(((time - few_time) * 1000 / 300000))
    steps=$(((picks - few_picks) / (time - few_time)))
    echo "pairs, $live alive: $steps million steps a second, $pair nanoseconds a pair"
    [ "$live" != 10 ] || least=$pair
done
echo "pairs: with 100000 alive one costs $((pair * 100 / least)) hundredths of what it costs with 10"
if command -v qemu-riscv64 > /dev/null && command -v riscv64-unknown-elf-gcc > /dev/null; then
    # the calls of oscar.h end in ecall with their numbers in a7: these are Linux's for exit and write
    sed -e 's/oscar_call(1, /oscar_call(93, /' -e 's/oscar_call(2, (uint64_t)bytes, count, 0)/oscar_call(64, 1, (uint64_t)bytes, count)/' \
        examples/oscar.h > "$work/oscar.h"
    sed 's/a7, x0, 1 /a7, x0, 93 /' examples/start.s > "$work/start.s"
    riscv64-unknown-elf-gcc -march=rv64ima -mabi=lp64 -mcmodel=medany -O1 -ffreestanding -static -nostdlib -I "$work" \
        -o "$work/compute" "$work/start.s" bench/compute.c -lgcc
    run_image bench/compute.elf --harts 1
    cp "$work/out" "$work/ours"
    ours=$time
    timed /dev/null qemu-riscv64 -singlestep "$work/compute"
    cmp "$work/out" "$work/ours"
    echo "qemu -singlestep, compute: $((retired / time)) million instructions a second; oscar's are $((time * 100 / ours)) hundredths of that"
else
    echo "qemu-riscv64 or the compiler is not installed: no figure beside"
fi
