#!/usr/bin/env bash
# Prints the wall time, the greatest resident memory and the bytes written of the built program for texts of
# 16 MiB that are assembled, and for images of 16 MiB that are listed.
set -eu
cd "$(dirname "$0")/.."
[ -x crates/oscar/out/oscar ] || ./prove
program=crates/oscar/out/oscar
work=$(mktemp -d)
trap 'rm -rf "$work"' EXIT
python3 - "$work" <<'FILES'
import itertools
import struct
import sys

LONGEST, START = 1 << 24, 0x10000


def text(name, lines):
    """As many of the lines, which repeat or do not end, as fit in 16 MiB."""
    kept, size = [], 0
    for line in lines:
        size += len(line) + 1
        if size > LONGEST:
            break
        kept.append(line + "\n")
    with open(f"{sys.argv[1]}/{name}.txt", "w") as out:
        out.write("".join(kept))


def image(name, words):
    """An image of 16 MiB with one segment of code, which the words fill again and again."""
    size = LONGEST - 4096
    code = b"".join(struct.pack("<I", word) for word in words)
    header = struct.pack("<4s12BHHIQQQIHHHHHH", b"\x7fELF", 2, 1, 1, *[0] * 9, 2, 243, 1,
                         START, 64, 0, 0, 64, 56, 1, 0, 0, 0)
    header += struct.pack("<IIQQQQQQ", 1, 5, 4096, START, 0, size, size, 4096)
    with open(f"{sys.argv[1]}/{name}.elf", "wb") as out:
        out.write(header.ljust(4096, b"\0") + (code * (size // len(code) + 1))[:size])


text("the shortest instruction", itertools.cycle(["ecall"]))
text("long instructions", itertools.cycle(["amomaxu.d.aqrl x30, x31, (x29)", "bgeu x30, x31, -4096"]))
text("a name for each jump", (line for n in itertools.count() for line in (f"n{n}:", f"jal x0, n{n}")))
text("bytes", ["bytes " + "5a" * ((LONGEST - 7) // 2)])
image("zeros", [0])
image("words that are no instruction", [0xFFFFFFFF])
image("long instructions", [0xE7FEBF2F, 0x81FF7063])
FILES
for file in "$work"/*.txt "$work"/*.elf; do
    mode=asm
    [ "${file%.elf}" = "$file" ] || mode=disasm
    status=0
    /usr/bin/time -f "%e s, %M KiB" -o "$work/.time" "$program" --mode $mode --frames 4096 \
        < "$file" > "$work/.out" 2> "$work/.err" || status=$?
    echo "$mode, $(basename "${file%.*}"): $(tail -n 1 "$work/.time"), $(stat -c %s "$work/.out") bytes, status $status $(cat "$work/.err")"
done
