#!/usr/bin/env python3
"""Makes the rows of crates/osc_int/src/tests.rt: instruction words as GNU as writes them, what the
registers x5 and x6 hold, and what the instruction does then, by the RISC-V Unprivileged manual and
Python's whole numbers; and the rows of crates/osc_amo/src/tests.rt: an operation, a width, what stands
in memory, the operand, what is stored, and what the register gets. With the word "check" it compares
them with the rows that stand there. Those of osc_int are skipped where there is no assembler for
riscv64 (Debian: binutils-riscv64-linux-gnu)."""
import os
import re
import shutil
import subprocess
import sys
import tempfile

PREFIX = "riscv64-linux-gnu-"
CRATES = os.path.join(os.path.dirname(__file__), "..", "crates")
INT_TESTS = os.path.join(CRATES, "osc_int", "src", "tests.rt")
AMO_TESTS = os.path.join(CRATES, "osc_amo", "src", "tests.rt")
TOP = 2**63
ALL = 2**64 - 1


def wrap(n):
    return n % 2**64


def signed(n, bits=64):
    n %= 2**bits
    return n - 2**bits if n >= 2 ** (bits - 1) else n


def word(n):
    return wrap(signed(n, 32))


def shown(n):
    """A number of 64 bits as a signed one, as it stands in the rows."""
    n = signed(n)
    if n in (-TOP, TOP - 1):
        return "LEAST" if n < 0 else "MOST"
    return str(n) if abs(n) < 0x1000 else hex(n)


def quotient(a, b):
    """Rounded towards zero; by 0 all bits are set."""
    if b == 0:
        return ALL
    return abs(a) // abs(b) * (1 if (a < 0) == (b < 0) else -1)


def remainder(a, b):
    return a if b == 0 else a - b * quotient(a, b)


PC = 0x1000
values, flows = [], []


def value(source, a, b, want):
    values.append((source, a, b, wrap(want)))


def flow(source, pc, a, b, want):
    flows.append((source, pc, a, b, want))


def of_two(name, a, b, want):
    value(f"{name} x7, x5, x6", a, b, want)


# Sums and differences: carries out of bit 31, out of bit 62 and out of bit 63.
for a, b in [(1, 2), (0xFFFFFFFF, 1), (TOP - 1, 1), (ALL, 1), (TOP, TOP)]:
    of_two("add", a, b, a + b)
for a, b in [(5, 5), (0, 1), (TOP, 1), (0, TOP), (2**32, 1)]:
    of_two("sub", a, b, a - b)
for a, b in [(0x7FFFFFFF, 1), (0xFFFFFFFF, 1), (2**32, 0), (0x80000000, 0), (ALL, ALL)]:
    of_two("addw", a, b, word(a + b))
for a, b in [(0, 1), (0x80000000, 1), (2**32, 1), (0, 0x80000000), (TOP, 0)]:
    of_two("subw", a, b, word(a - b))
for a, b in [(5, 5), (ALL, 0), (0, ALL), (TOP, TOP - 1), (TOP - 1, TOP), (1, 2)]:
    of_two("slt", a, b, signed(a) < signed(b))
    of_two("sltu", a, b, a < b)
A, B = 0xF0F0F0F0, 0xFF00FF00
of_two("xor", A, B, 0x0FF00FF0)
of_two("or", A, B, 0xFFF0FFF0)
of_two("and", A, B, 0xF000F000)
of_two("xor", ALL, 5, wrap(-6))
of_two("or", TOP, ALL, ALL)
of_two("and", TOP, ALL, TOP)

# Products: the halves of all 128 bits, and the low 32 bits of words.
for a, b in [(3, 5), (ALL, ALL), (TOP, TOP), (TOP, ALL), (ALL, TOP), (TOP - 1, TOP - 1), (2**32, 2**32)]:
    of_two("mul", a, b, a * b)
    of_two("mulh", a, b, signed(a) * signed(b) >> 64)
    of_two("mulhsu", a, b, signed(a) * b >> 64)
    of_two("mulhu", a, b, a * b >> 64)
for a, b in [(0x7FFFFFFF, 2), (0x80000000, 0xFFFFFFFF), (0x100000003, 5), (ALL, 7)]:
    of_two("mulw", a, b, word(a * b))

# Quotients and remainders: every pair of signs, by 0, and the least number by -1.
for a, b in [(7, 2), (wrap(-7), 2), (7, wrap(-2)), (wrap(-7), wrap(-2)), (5, 0), (TOP, 0), (TOP, ALL), (TOP, 1), (TOP - 1, ALL), (2, 3), (ALL, TOP)]:
    of_two("div", a, b, quotient(signed(a), signed(b)))
    of_two("divu", a, b, quotient(a, b))
    of_two("rem", a, b, remainder(signed(a), signed(b)))
    of_two("remu", a, b, remainder(a, b))
for a, b in [(wrap(-7), 2), (7, 0xFFFFFFFE), (5, 0), (0x80000000, 2**32), (0x80000000, 0xFFFFFFFF), (0xFFFFFFFF, 1), (0x500000009, 0x300000004)]:
    low_a, low_b = a % 2**32, b % 2**32
    of_two("divw", a, b, word(quotient(signed(a, 32), signed(b, 32))))
    of_two("divuw", a, b, word(quotient(low_a, low_b)))
    of_two("remw", a, b, word(remainder(signed(a, 32), signed(b, 32))))
    of_two("remuw", a, b, word(remainder(low_a, low_b)))

# Shifts by the low 6 bits of x6, or its low 5 bits in the W forms.
A = wrap(-5)
for b in [0, 1, 31, 32, 63, 64, ALL]:
    amount = b % 64
    of_two("sll", A, b, A << amount)
    of_two("srl", A, b, A >> amount)
    of_two("sra", A, b, signed(A) >> amount)
of_two("sra", TOP, 63, ALL)
of_two("sra", TOP - 1, 62, 1)
A = 0x180000001
for b in [0, 1, 31, 32, 63]:
    amount = b % 32
    of_two("sllw", A, b, word(A << amount))
    of_two("srlw", A, b, word(A % 2**32 >> amount))
    of_two("sraw", A, b, word(signed(A, 32) >> amount))
of_two("sraw", wrap(-0x80000001), 4, 0x07FFFFFF)
for amount in [0, 1, 31]:
    value(f"slliw x7, x5, {amount}", A, 0, word(A << amount))
    value(f"srliw x7, x5, {amount}", A, 0, word(A % 2**32 >> amount))
    value(f"sraiw x7, x5, {amount}", A, 0, word(signed(A, 32) >> amount))
A = wrap(-5)
for amount in [0, 1, 31, 32, 63]:
    value(f"slli x7, x5, {amount}", A, 0, A << amount)
    value(f"srli x7, x5, {amount}", A, 0, A >> amount)
    value(f"srai x7, x5, {amount}", A, 0, signed(A) >> amount)

# Immediates are extended by their sign, also where the comparison has none.
for a, imm in [(0, 2047), (0, -2048), (1, -1), (ALL, 1), (TOP, -1)]:
    value(f"addi x7, x5, {imm}", a, 0, a + imm)
for a, imm in [(0x80000000, 0), (0x7FFFFFFF, 1), (0x80000000, -1), (2**32 - 1, 1), (2**32, -2048)]:
    value(f"addiw x7, x5, {imm}", a, 0, word(a + imm))
for a, imm in [(ALL, 0), (0, -1), (ALL, -1), (TOP, -2048), (wrap(-2049), -2048), (2046, 2047)]:
    value(f"slti x7, x5, {imm}", a, 0, signed(a) < imm)
for a, imm in [(0, 1), (1, 1), (5, -1), (ALL, -1), (4095, -1), (wrap(-2049), -2048), (2047, 2047)]:
    value(f"sltiu x7, x5, {imm}", a, 0, a < wrap(imm))
value("xori x7, x5, -1", 0x00FF, 0, wrap(~0x00FF))
value("xori x7, x5, 0x555", 0xFFFF, 0, 0xFAAA)
value("ori x7, x5, -2048", 5, 0, wrap(-2043))
value("ori x7, x5, 0x7f0", 0x800F, 0, 0x87FF)
value("andi x7, x5, -1", A, 0, A)
value("andi x7, x5, 255", 0x1234, 0, 0x34)
value("addi x7, x0, 3", 9, 9, 3)
value("add x7, x0, x6", 9, 4, 4)

# Upper immediates; the row's pc is 0x1000.
for imm in [0, 1, 0x7FFFF, 0x80000, 0xFFFFF]:
    value(f"lui x7, {imm}", 0, 0, word(imm << 12))
    value(f"auipc x7, {imm}", 0, 0, PC + word(imm << 12))


def go(target):
    return f"Go({shown(target)})"


def bad(target):
    return f"BadTarget({shown(target)})"


def link(rd, pc, target):
    return f"Link({rd}, {shown(pc + 4)}, {shown(target)})"


# Jumps to the ends of their range, round the ends of the addresses, and to half a word.
for offset in [0, 4, -4, 1048572, -1048576]:
    flow(f"jal x7, .+({offset})", PC, 0, 0, link(7, PC, PC + offset))
for offset in [2, -2, 1048574]:
    flow(f"jal x7, .+({offset})", PC, 0, 0, bad(PC + offset))
flow("jal x0, .+(-4)", 0, 0, 0, link(0, 0, wrap(-4)))
flow("jal x7, .+(4)", wrap(-4), 0, 0, link(7, wrap(-4), 0))
flow("jal x7, .+(-1048576)", 0, 0, 0, link(7, 0, wrap(-1048576)))
flow("jalr x7, 0(x5)", PC, 0x20001, 0, link(7, PC, 0x20000))
flow("jalr x7, 0(x5)", PC, 0x20002, 0, bad(0x20002))
flow("jalr x7, 0(x5)", PC, 0x20003, 0, bad(0x20002))
flow("jalr x7, 2047(x5)", PC, 1, 0, link(7, PC, 2048))
flow("jalr x7, 2047(x5)", PC, 2, 0, link(7, PC, 2048))
flow("jalr x7, -2048(x5)", PC, 0x800, 0, link(7, PC, 0))
flow("jalr x7, -4(x5)", PC, 0, 0, link(7, PC, wrap(-4)))
flow("jalr x7, -1(x5)", PC, 0, 0, bad(wrap(-2)))
flow("jalr x5, 0(x5)", PC, 0x30000, 0, link(5, PC, 0x30000))
flow("jalr x0, 8(x5)", PC, ALL, 0, bad(6))

# Branches, taken and not; one that is not taken may have any target.
for name, test in [
    ("beq", lambda a, b: a == b),
    ("bne", lambda a, b: a != b),
    ("blt", lambda a, b: signed(a) < signed(b)),
    ("bge", lambda a, b: signed(a) >= signed(b)),
    ("bltu", lambda a, b: a < b),
    ("bgeu", lambda a, b: a >= b),
]:
    for a, b in [(1, 1), (1, ALL), (ALL, 1), (TOP, TOP - 1), (TOP - 1, TOP), (2**32, 0)]:
        flow(f"{name} x5, x6, .+(-8)", PC, a, b, go(PC - 8 if test(a, b) else PC + 4))
for offset in [4092, -4096, 0]:
    flow(f"beq x5, x6, .+({offset})", PC, 3, 3, go(PC + offset))
    flow(f"beq x5, x6, .+({offset})", PC, 3, 4, go(PC + 4))
for offset in [4094, -4094, 2]:
    flow(f"beq x5, x6, .+({offset})", PC, 3, 3, bad(PC + offset))
    flow(f"beq x5, x6, .+({offset})", PC, 3, 4, go(PC + 4))
flow("beq x0, x0, .+(-4096)", 0, 0, 0, go(wrap(-4096)))
flow("bne x5, x0, .+(8)", wrap(-4), 1, 0, go(4))
flow("bne x5, x0, .+(8)", wrap(-4), 0, 0, go(0))

# Loads and stores: the address wraps, and a store keeps the bits that it has place for.
for name in ["lb", "lh", "lw", "ld", "lbu", "lhu", "lwu"]:
    kind = name.capitalize()
    flow(f"{name} x7, 2047(x5)", PC, 0x1000, 0, f"Load({kind}, 0x17ff)")
    flow(f"{name} x7, -2048(x5)", PC, 0x17FF, 0, f"Load({kind}, 4095)")
flow("ld x7, -8(x5)", PC, 0, 0, "Load(Ld, -8)")
flow("lw x7, 16(x5)", PC, wrap(-8), 0, "Load(Lw, 8)")
for name, width in [("sb", 1), ("sh", 2), ("sw", 4), ("sd", 8)]:
    for b in [3 * 2 ** (8 * width - 1) + 1, ALL]:
        flow(f"{name} x6, 4(x5)", PC, 64, wrap(b), f"Store({width}, 68, {shown(b % 256**width)})")
flow("sb x6, -1(x5)", PC, 0, 0x100, "Store(1, -1, 0)")
flow("sd x0, 2047(x5)", PC, 1, 9, "Store(8, 2048, 0)")

for source in ["fence", "fence.tso", "fence.i"]:
    flow(source, PC, 1, 2, go(PC + 4))
flow("fence", wrap(-4), 1, 2, go(0))
flow("ecall", PC, 1, 2, "Call")
flow("ebreak", PC, 1, 2, "Break")
flow("lr.w x7, (x5)", PC, 67, 9, "Atomic(67, 0)")
flow("lr.d.aq x7, (x5)", PC, ALL, 9, "Atomic(-1, 0)")
flow("sc.w x7, x6, (x5)", PC, 64, ALL, "Atomic(64, -1)")
flow("sc.d.rl x7, x6, (x5)", PC, 65, 7, "Atomic(65, 7)")
flow("amoadd.w x7, x6, (x5)", PC, 64, TOP, "Atomic(64, LEAST)")
flow("amoswap.d x7, x0, (x5)", PC, 64, TOP, "Atomic(64, 0)")


# Atomic memory operations: in .w the upper halves do not count, and the register gets the sign.
HIGH = 0x5A5A5A5A << 32
EDGES = [
    (1, 2),
    (0, ALL),
    (ALL, 0),
    (ALL, ALL),
    (TOP, TOP),
    (TOP, TOP - 1),
    (TOP - 1, TOP),
    (TOP - 1, 1),
    (0x7FFFFFFF, 1),
    (0x80000000, 0x7FFFFFFF),
    (0x7FFFFFFF, 0x80000000),
    (0xFFFFFFFF, 1),
    (2**32, 0xFFFFFFFF),
    (HIGH + 0xF0F0F0F0, 0xFF00FF00),
    (5, HIGH + 3),
    (HIGH + 3, 5),
]
AMOS = {
    "Add": lambda a, b, bits: a + b,
    "Swap": lambda a, b, bits: b,
    "Xor": lambda a, b, bits: a ^ b,
    "Or": lambda a, b, bits: a | b,
    "And": lambda a, b, bits: a & b,
    "Min": lambda a, b, bits: min(a, b, key=lambda n: signed(n, bits)),
    "Max": lambda a, b, bits: max(a, b, key=lambda n: signed(n, bits)),
    "Minu": lambda a, b, bits: min(a, b),
    "Maxu": lambda a, b, bits: max(a, b),
}


def amo_rows():
    rows = []
    for op, meaning in AMOS.items():
        for width, bits in [("W", 32), ("D", 64)]:
            for a, b in EDGES:
                stored = meaning(a % 2**bits, b % 2**bits, bits) % 2**bits
                fields = ", ".join(map(shown, [a, b, stored, signed(a, bits)]))
                rows.append(f"({op}, {width}, {fields})")
    return rows


def words_of(sources):
    with tempfile.TemporaryDirectory() as folder:
        source, obj, out = (os.path.join(folder, name) for name in ["rows.s", "rows.o", "rows.bin"])
        with open(source, "w") as file:
            file.write(".option norvc\n.option norelax\n" + "\n".join(sources) + "\n")
        subprocess.run([PREFIX + "as", "-march=rv64ima_zifencei", "-o", obj, source], check=True)
        subprocess.run([PREFIX + "objcopy", "-O", "binary", obj, out], check=True)
        code = open(out, "rb").read()
    assert len(code) == 4 * len(sources)
    return [int.from_bytes(code[i : i + 4], "little") for i in range(0, len(code), 4)]


def int_rows():
    rows = []
    words = words_of([row[0] for row in values + flows])
    for word_, (source, *numbers) in zip(words, values):
        fields = ", ".join(map(shown, numbers))
        rows.append(f'("{source.split()[0]}", {word_:#010x}, {fields})')
    for word_, (source, pc, a, b, want) in zip(words[len(values) :], flows):
        fields = ", ".join(map(shown, [pc, a, b]))
        rows.append(f'("{source.split()[0]}", {word_:#010x}, [{fields}], {want})')
    return rows


def missing_in(path, rows):
    """The rows that do not stand in a file; rt fmt breaks a long row over several lines."""
    text = re.sub(r",\)", ")", re.sub(r"\s", "", open(path).read()))
    return [row for row in rows if row.replace(" ", "") + "," not in text]


def main():
    tables = [(AMO_TESTS, amo_rows())]
    if shutil.which(PREFIX + "as") is None:
        print(f"skipped for osc_int: no {PREFIX}as")
    else:
        tables.insert(0, (INT_TESTS, int_rows()))
    failed = 0
    for path, rows in tables:
        name = os.path.basename(os.path.dirname(os.path.dirname(path)))
        if sys.argv[1:] != ["check"]:
            print("\n".join(f"    {row}," for row in rows))
            print(f"{name}: {len(rows)} rows", file=sys.stderr)
            continue
        missing = missing_in(path, rows)
        failed += len(missing)
        print("\n".join(missing) if missing else f"{name} same: {len(rows)} rows")
    return 1 if failed else 0


sys.exit(main())
