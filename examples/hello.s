# Prints hello and ends with status 0.
        .globl  _start
_start:
        lui     a0, %hi(message)
        addi    a0, a0, %lo(message)
        addi    a1, x0, 6
        addi    a7, x0, 2               # write(a0, a1)
        ecall
        addi    a0, x0, 0
        addi    a7, x0, 1               # exit(a0)
        ecall

        .data
message:
        .ascii  "hello\n"
