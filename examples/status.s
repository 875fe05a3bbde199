# Writes nothing and ends with status 7.
        .globl  _start
_start:
        addi    a0, x0, 7
        addi    a7, x0, 1               # exit(a0)
        ecall
