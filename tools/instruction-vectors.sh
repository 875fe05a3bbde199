#!/usr/bin/env bash
# Makes the rows of crates/osc_rv/src/tests.rt: instruction words as GNU as writes them, each with
# its name and its fields. With the word "check" it compares them with the rows that stand there.
# It is skipped where there is no assembler for riscv64 (Debian: binutils-riscv64-linux-gnu).
set -eu
cd "$(dirname "$0")/.."
tests=crates/osc_rv/src/tests.rt
as=riscv64-linux-gnu-as
if ! command -v "$as" >/dev/null; then
    echo "skipped: no $as"
    exit 0
fi
work=$(mktemp -d)
trap 'rm -rf "$work"' EXIT
printf '.option norvc\n.option norelax\n' >"$work/rows.s"

# row NAME RD RS1 RS2 IMMEDIATE ORDER SOURCE: fields are 0 where the instruction has none. An
# immediate is the bits of its field, an offset without its bit 0; ORDER is 2 for aq and 1 for rl.
# The name "none" stands for a word that RV64IMA and fence.i do not have.
row() {
    echo "(\"$1\", [$2, $3, $4, $(($5)), $6])" >>"$work/rows"
    echo "$7" >>"$work/rows.s"
}

none() {
    row none 0 0 0 0 0 "$1"
}

for immediate in 0 1 0x80000 0xfffff; do
    row lui 31 0 0 $immediate 0 "lui x31, $immediate"
    row auipc 1 0 0 $immediate 0 "auipc x1, $immediate"
done

for offset in 0 2 2048 4096 1048574 -2 -1048576; do
    row jal 1 0 0 "($offset & 0x1fffff) >> 1" 0 "jal x1, .+($offset)"
done
row jal 31 0 0 0x2aa55 0 "jal x31, .+0x554aa"

for immediate in 0 1 2047 -1 -2048; do
    row jalr 1 31 0 "$immediate & 0xfff" 0 "jalr x1, $immediate(x31)"
    row addi 31 1 0 "$immediate & 0xfff" 0 "addi x31, x1, $immediate"
    row addiw 1 16 0 "$immediate & 0xfff" 0 "addiw x1, x16, $immediate"
    row ld 31 2 0 "$immediate & 0xfff" 0 "ld x31, $immediate(x2)"
    row sd 0 2 31 "$immediate & 0xfff" 0 "sd x31, $immediate(x2)"
done
for name in slti sltiu xori ori andi; do
    row $name 2 29 0 0x555 0 "$name x2, x29, 0x555"
    row $name 29 2 0 0x800 0 "$name x29, x2, -2048"
done
for name in lb lh lw lbu lhu lwu; do
    row $name 3 28 0 0x7ff 0 "$name x3, 2047(x28)"
    row $name 28 3 0 0x800 0 "$name x28, -2048(x3)"
done
for name in sb sh sw; do
    row $name 0 3 28 0x7e0 0 "$name x28, 2016(x3)"
    row $name 0 28 3 0x81f 0 "$name x3, -2017(x28)"
done

for offset in 2 30 32 2046 2048 4094 -2 -4096; do
    row beq 0 31 1 "($offset & 0x1fff) >> 1" 0 "beq x31, x1, .+($offset)"
done
for name in bne blt bge bltu bgeu; do
    row $name 0 5 26 0x7aa 0 "$name x5, x26, .+0xf54"
    row $name 0 26 5 0xc55 0 "$name x26, x5, .-1878"
done

for name in slli srli srai; do
    for amount in 0 1 31 32 63; do
        row $name 4 27 0 $amount 0 "$name x4, x27, $amount"
    done
done
for name in slliw srliw sraiw; do
    for amount in 0 1 31; do
        row $name 27 4 0 $amount 0 "$name x27, x4, $amount"
    done
done

for name in add sub sll slt sltu xor srl sra or and addw subw sllw srlw sraw; do
    row $name 1 2 4 0 0 "$name x1, x2, x4"
    row $name 31 30 29 0 0 "$name x31, x30, x29"
done

for name in mul mulh mulhsu mulhu div divu rem remu mulw divw divuw remw remuw; do
    row $name 10 11 12 0 0 "$name x10, x11, x12"
    row $name 31 1 30 0 0 "$name x31, x1, x30"
done

row fence 0 0 0 "0x0ff << 10" 0 "fence"
row fence 0 0 0 "0x833 << 10" 0 "fence.tso"
row fence 0 0 0 "0x012 << 10" 0 "fence w, r"
row fence 0 0 0 "0x3fffff" 0 ".insn i 0x0f, 0, x31, x31, -1"
row fence.i 0 0 0 0 0 "fence.i"
row fence.i 0 0 0 "0x3fffff" 0 ".insn i 0x0f, 1, x31, x31, -1"
row ecall 0 0 0 0 0 "ecall"
row ebreak 0 0 0 0 0 "ebreak"

order=0
for suffix in "" .rl .aq .aqrl; do
    for width in w d; do
        row lr.$width 1 30 0 0 $order "lr.$width$suffix x1, (x30)"
        row sc.$width 30 1 15 0 $order "sc.$width$suffix x30, x15, (x1)"
        row amoswap.$width 0 31 16 0 $order "amoswap.$width$suffix x0, x16, (x31)"
        row amoadd.$width 31 0 8 0 $order "amoadd.$width$suffix x31, x8, (x0)"
    done
    order=$((order + 1))
done
for name in amoxor amoor amoand amomin amomax amominu amomaxu; do
    row $name.w 6 25 12 0 2 "$name.w.aq x6, x12, (x25)"
    row $name.d 25 6 19 0 1 "$name.d.rl x25, x19, (x6)"
done

# Near misses: other extensions, and codes that the base leaves reserved.
none ".half 0x0001, 0x0001" # c.nop, twice
none ".word 0"
none ".word -1"
none "flw f1, 0(x2)"
none "fsd f1, 0(x2)"
none "fadd.s f1, f2, f3"
none "csrrw x1, cycle, x2"
none "csrrsi x0, fflags, 1"
none "mret"
none "wfi"
none ".insn i 0x73, 0, x1, x0, 0" # ecall with rd
none ".insn i 0x73, 0, x0, x1, 0" # ecall with rs1
none ".insn i 0x73, 0, x0, x0, 2" # neither ecall nor ebreak
none ".insn i 0x67, 1, x1, x2, 0" # jalr
none ".insn s 0x63, 2, x1, 0(x2)" # branch
none ".insn s 0x63, 3, x1, 0(x2)"
none ".insn i 0x03, 7, x1, x2, 0" # load
none ".insn s 0x23, 4, x1, 0(x2)" # store
none ".insn s 0x23, 7, x1, 0(x2)"
none ".insn i 0x13, 1, x1, x2, 64" # slli with a seventh bit
none ".insn i 0x13, 5, x1, x2, 64" # srli
none ".insn i 0x13, 5, x1, x2, 0x440" # srai
none ".insn i 0x13, 1, x1, x2, 0x400" # slli with srai's bit
none ".insn i 0x1b, 1, x1, x2, 32" # slliw with a sixth bit
none ".insn i 0x1b, 5, x1, x2, 32" # srliw
none ".insn i 0x1b, 5, x1, x2, 0x420" # sraiw
none ".insn i 0x1b, 2, x1, x2, 0" # no sltiw
none ".insn i 0x1b, 7, x1, x2, 0"
none ".insn r 0x33, 1, 0x20, x1, x2, x3" # sll with sub's bit
none ".insn r 0x33, 0, 0x21, x1, x2, x3"
none ".insn r 0x33, 5, 0x10, x1, x2, x3"
none ".insn r 0x3b, 2, 0, x1, x2, x3" # no sltw
none ".insn r 0x3b, 1, 0x20, x1, x2, x3"
none ".insn r 0x3b, 1, 1, x1, x2, x3" # no mulhw
none ".insn r 0x3b, 2, 1, x1, x2, x3"
none ".insn r 0x3b, 3, 1, x1, x2, x3"
none ".insn r 0x33, 0, 3, x1, x2, x3" # mul with a further bit
none ".insn r 0x3b, 4, 0x21, x1, x2, x3"
none ".insn i 0x0f, 2, x0, x0, 0" # cbo
none ".insn r 0x2f, 2, 0x08, x1, x2, x3" # lr.w with rs2
none ".insn r 0x2f, 3, 0x0b, x1, x2, x31"
none ".insn r 0x2f, 1, 0, x1, x2, x3" # amoadd.h
none ".insn r 0x2f, 4, 0, x1, x2, x3"
none ".insn r 0x2f, 2, 0x14, x1, x2, x3" # amocas.w
none ".insn r 0x2f, 3, 0x7c, x1, x2, x3"

"$as" -march=rv64imafd_zicsr_zifencei -o "$work/rows.o" "$work/rows.s"
riscv64-linux-gnu-objcopy -O binary "$work/rows.o" "$work/rows.bin"
od -An -v -tx4 -w4 "$work/rows.bin" | tr -d ' ' >"$work/words"
paste -d' ' "$work/words" "$work/rows" | sed 's/^\(........\) (/    (0x\1, /; s/$/,/' >"$work/table"
if [ "${1:-}" = check ]; then
    grep '^    (0x' "$tests" | diff - "$work/table" && echo "same: $(wc -l <"$work/table") rows"
else
    cat "$work/table"
fi
