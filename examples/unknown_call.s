# Asks for a call that there is not: the run ends by a fault, with status 70. What was written stays.
        .globl  _start
_start:
        lui     a0, %hi(message)
        addi    a0, a0, %lo(message)
        addi    a1, x0, 7
        addi    a7, x0, 2               # write(a0, a1)
        ecall
        addi    a7, x0, 12              # no such call
        ecall

        .data
message:
        .ascii  "before\n"
