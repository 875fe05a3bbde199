#!/usr/bin/env bash
# Makes the images from their sources with the GNU tools for RISC-V (Debian: gcc-riscv64-unknown-elf).
# The images are kept beside their sources, so nobody needs this to run them.
set -eu
cd "$(dirname "$0")"
objects=$(mktemp -d)
trap 'rm -rf "$objects"' EXIT
target=(-march=rv64ima -mabi=lp64)

# assemble SOURCE OBJECT
assemble() {
    riscv64-unknown-elf-as "${target[@]}" -mno-arch-attr -o "$2" "$1"
}

# compile SOURCE OBJECT
compile() {
    riscv64-unknown-elf-gcc "${target[@]}" -mcmodel=medany -O1 -ffreestanding -Wall -Wextra -I . -c -o "$2" "$1"
}

# image NAME WORD.., where the words are objects and words for the linker
image() {
    local name=$1
    shift
    riscv64-unknown-elf-gcc "${target[@]}" -static -nostdlib -Wl,--build-id=none -o "$name.elf" "$@" -lgcc
    riscv64-unknown-elf-strip "$name.elf"
}

assemble start.s "$objects/start.o"
for source in *.s; do
    [ "$source" != start.s ] || continue
    assemble "$source" "$objects/guest.o"
    # without start.s nobody sets gp
    image "${source%.s}" -Wl,--no-relax "$objects/guest.o"
done
for source in *.c bugs/*.c; do
    compile "$source" "$objects/guest.o"
    image "${source%.c}" "$objects/start.o" "$objects/guest.o"
done
