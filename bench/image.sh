#!/usr/bin/env bash
# Prints the wall time and the greatest resident memory of the built program on images that are dear to
# read: files of 16 MiB with 65535 program headers, a segment of 4 GiB of zeros, and a file of one byte
# too many. Each is an image, but needs more frames than the machine has unless the line says otherwise.
set -eu
cd "$(dirname "$0")/.."
[ -x crates/oscar/out/oscar ] || ./prove
program=crates/oscar/out/oscar
work=$(mktemp -d)
trap 'rm -rf "$work"' EXIT
python3 - "$work" <<'FILES'
import struct
import sys

LONGEST, HEADERS = 1 << 24, 65535
# addi a0, x0, 0; addi a7, x0, 1; ecall: exit with status 0
CODE = struct.pack("<3I", 0x00000513, 0x00100893, 0x00000073)
READ_WRITE, READ_EXECUTE = 6, 5
START, DATA = 0x10000, 0x20000


def load(flags, offset, address, file_size, size):
    return struct.pack("<IIQQQQQQ", 1, flags, offset, address, 0, file_size, size, 4096)


def write(name, loads, length=LONGEST):
    """An image whose code stands after its program headers, filled up to so many bytes."""
    loads = loads + [load(READ_EXECUTE, 64 + 56 * (len(loads) + 1), START, len(CODE), len(CODE))]
    header = struct.pack("<4s12BHHIQQQIHHHHHH", b"\x7fELF", 2, 1, 1, *[0] * 9, 2, 243, 1,
                         START, 64, 0, 0, 64, 56, len(loads), 0, 0, 0)
    file = header + b"".join(loads) + CODE
    with open(f"{sys.argv[1]}/{name}", "wb") as out:
        out.write(file + b"x" * (length - len(file)))


def ladder(step, size):
    """Segments side by side, each so many bytes after the one before."""
    return [load(READ_WRITE, 0, DATA + step * i, min(size, LONGEST), size) for i in range(HEADERS - 1)]


PAGES = 980
write("side by side, 980 pages, run", ladder(PAGES * 4096 // HEADERS, PAGES * 4096 // HEADERS))
write("every other byte of 32 pages, run", ladder(2, 1))
write("nested from both ends, 980 pages, run",
      [load(READ_WRITE, 0, DATA + i, 8192, PAGES * 4096 - 2 * i) for i in range(HEADERS - 1)])
write("side by side, 15 MiB", ladder(240, 240))
write("all the same 15 MiB", [load(READ_WRITE, 0, DATA, 15 << 20, 15 << 20)] * (HEADERS - 1))
write("all the same 4 GiB of zeros", [load(READ_WRITE, 0, DATA, 0, (1 << 32) - DATA)] * (HEADERS - 1))
write("one segment of 4 GiB of zeros", [load(READ_WRITE, 0, DATA, 0, (1 << 32) - DATA)], 4096)
write("one byte too many", ladder(240, 240), LONGEST + 1)
FILES
for file in "$work"/*; do
    status=0
    /usr/bin/time -f "%e s, %M KiB" -o "$work/.time" "$program" < "$file" > /dev/null 2> "$work/.err" || status=$?
    echo "$(basename "$file"): $(tail -n 1 "$work/.time"), status $status $(cat "$work/.err")"
done
