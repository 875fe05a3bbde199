# Prints the factorials of 1 to 20, by products, quotients and remainders of 64 bits.
        .globl  _start
_start:
        addi    s0, x0, 1               # k
        addi    s1, x0, 1               # k!
        addi    s2, x0, 20
        lui     s3, %hi(line_end)
        addi    s3, s3, %lo(line_end)   # the place after the line's last byte
        addi    s4, x0, 10
next:
        mul     s1, s1, s0
        addi    t0, s3, -1
        sb      s4, 0(t0)               # the newline
        addi    t1, s1, 0
digit:                                  # from the last digit to the first
        remu    t2, t1, s4
        divu    t1, t1, s4
        addi    t2, t2, 48
        addi    t0, t0, -1
        sb      t2, 0(t0)
        bne     t1, x0, digit
        addi    a0, t0, 0
        sub     a1, s3, t0
        addi    a7, x0, 2               # write(a0, a1)
        ecall
        addi    s0, s0, 1
        bgeu    s2, s0, next
        div     a0, s1, s1
        addi    a0, a0, -1
        addi    a7, x0, 1               # exit(a0)
        ecall

        .bss
line:
        .space  24
line_end:
