# Prints three lines, the last one first in the code, by jumps that go forth and back.
        .globl  _start
_start:
        jal     x0, first
third:
        lui     a0, %hi(roses)
        addi    a0, a0, %lo(roses)
        addi    a1, x0, 15
        addi    a7, x0, 2               # write(a0, a1)
        ecall
        jal     x0, end
first:
        lui     a0, %hi(lines)
        addi    a0, a0, %lo(lines)
        addi    a1, x0, 14
        addi    a7, x0, 2
        ecall
        jal     ra, second
second:
        lui     a0, %hi(lines + 14)
        addi    a0, a0, %lo(lines + 14)
        addi    a1, x0, 18
        addi    a7, x0, 2
        ecall
        jal     x0, third
end:
        addi    a0, x0, 0
        addi    a7, x0, 1               # exit(a0)
        ecall

        .data
lines:
        .ascii  "a pointer is a"
        .ascii  " promise: a freed\n"
roses:
        .ascii  "page is closed\n"
