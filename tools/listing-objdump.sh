#!/usr/bin/env bash
# Lists the words of GNU as that stand in the tests of crates/osc_rv, osc_text and osc_line with the program that
# `rt ci` or ./prove built, or with the one that is named, and compares each line with what GNU objdump prints:
# the mnemonic, the registers, and the numbers, of which objdump writes some in hexadecimal and targets as
# addresses. The bits of a fence have a notation of their own here and are left out. It is skipped where there is
# no objdump for riscv64 (Debian: binutils-riscv64-linux-gnu).
set -eu
cd "$(dirname "$0")/.."
program=${1:-crates/oscar/out/oscar}
objdump=riscv64-linux-gnu-objdump
if ! command -v "$objdump" > /dev/null; then
    echo "skipped: no $objdump"
    exit 0
fi
[ -x "$program" ] || { echo "listing: $program is not there: rt ci or ./prove builds it"; exit 1; }
work=$(mktemp -d)
trap 'rm -rf "$work"' EXIT
python3 - "$work" crates/osc_{rv,text,line}/src/tests.rt <<'FILES'
import re
import struct
import sys

START = 0x10000
words = []
for name in sys.argv[2:]:
    with open(name) as source:
        words += [int(word, 16) for word in re.findall(r"\b0x[0-9a-f]{8}\b", source.read())]
code = b"".join(struct.pack("<I", word) for word in dict.fromkeys(words))
header = struct.pack("<4s12BHHIQQQIHHHHHH", b"\x7fELF", 2, 1, 1, *[0] * 9, 2, 243, 1,
                     START, 64, 0, 0, 64, 56, 1, 0, 0, 0)
header += struct.pack("<IIQQQQQQ", 1, 5, 4096, START, 0, len(code), len(code), 4096)
with open(f"{sys.argv[1]}/image", "wb") as out:
    out.write(header.ljust(4096, b"\0") + code)
with open(f"{sys.argv[1]}/code", "wb") as out:
    out.write(code)
FILES
"$program" --mode disasm < "$work/image" > "$work/listing"
"$objdump" -D -b binary -m riscv:rv64 -M no-aliases,numeric --adjust-vma=0x10000 "$work/code" > "$work/objdump"
python3 - "$work" <<'COMPARE'
import re
import sys

TARGETS = {"jal", "beq", "bne", "blt", "bge", "bltu", "bgeu"}


def number(text):
    """A number as a decimal one, and anything else as it is."""
    return str(int(text, 0)) if re.fullmatch(r"-?(0x[0-9a-f]+|[0-9]+)", text) else text


def ours(line):
    """The address of a line of a listing, and what stands there: none where it is no instruction."""
    address, mnemonic, *operands = line.replace(",", "").split()
    if mnemonic == "word":
        return int(address, 0), None
    operands = [number(it) for it in operands]
    if mnemonic in TARGETS:
        operands[-1] = str((int(address, 0) + int(operands[-1])) % 2 ** 64)
    return int(address, 0), [mnemonic, *operands]


def theirs(line):
    """The same of a line of objdump: none where it has no name for the word."""
    address, _, rest = line.rstrip("\n").split("\t", 2)
    mnemonic, _, operands = rest.partition("\t")
    if mnemonic.startswith("."):
        return int(address.strip(" :"), 16), None
    operands = [number(it) for it in re.sub(r" *[#<].*", "", operands).split(",") if it]
    return int(address.strip(" :"), 16), [mnemonic, *operands]


with open(f"{sys.argv[1]}/listing") as listing:
    listed = dict(ours(line) for line in listing)
with open(f"{sys.argv[1]}/objdump") as dump:
    dumped = dict(theirs(line) for line in dump if re.match(r" *[0-9a-f]+:\t", line))
dumped = {address: it for address, it in dumped.items() if address in listed}
counts = {"same": 0, "own notation": 0, "beyond RV64IMA": 0, "differ": 0}
for address, wanted in dumped.items():
    found = listed[address]
    if found and found[0].startswith("fence"):
        kind = "own notation"
    elif found is None and wanted is not None:
        kind = "beyond RV64IMA"
    else:
        kind = "same" if found == wanted else "differ"
    counts[kind] += 1
    if kind in ("differ", "beyond RV64IMA"):
        print(f"{address:#x}: {found} {kind} {wanted}")
print("listing: " + ", ".join(f"{count} {kind}" for kind, count in counts.items()))
sys.exit(1 if counts["differ"] else 0)
COMPARE
