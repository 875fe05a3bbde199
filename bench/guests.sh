#!/usr/bin/env bash
# Makes the images of bench/steps.sh from compute.c and pairs.c, with the tools that examples/build.sh names.
# The images are kept, so nobody needs this to run them.
set -eu
cd "$(dirname "$0")"
objects=$(mktemp -d)
trap 'rm -rf "$objects"' EXIT
target=(-march=rv64ima -mabi=lp64)
riscv64-unknown-elf-as "${target[@]}" -mno-arch-attr -o "$objects/start.o" ../examples/start.s

# image NAME SOURCE WORD..
image() {
    local name=$1 source=$2
    shift 2
    riscv64-unknown-elf-gcc "${target[@]}" -mcmodel=medany -O1 -ffreestanding -Wall -Wextra -I ../examples "$@" -c -o "$objects/guest.o" "$source"
    riscv64-unknown-elf-gcc "${target[@]}" -static -nostdlib -Wl,--build-id=none -o "$name.elf" "$objects/start.o" "$objects/guest.o" -lgcc
    riscv64-unknown-elf-strip "$name.elf"
}

image compute compute.c
for live in 10 100000; do
    image "pairs_${live}_few" pairs.c -DLIVE=$live -DPAIRS=100000
    image "pairs_${live}_many" pairs.c -DLIVE=$live -DPAIRS=400000
done
