# Interprets a program for a stack machine. Each instruction of that machine is one byte; push and the
# jumps have one byte after them, a number or a distance from the byte behind it. The program prints the
# numbers of Collatz's rule from 27 on (each even number halved, each odd one tripled and one added) up
# to 1.
        .equ    PUSH, 0                 # n   : push the number n
        .equ    DUP, 1                  #     : push the top again
        .equ    ADD, 2                  #     : the two top numbers become their sum
        .equ    ODD, 3                  #     : the top becomes its lowest bit
        .equ    HALVE, 4                #     : the top is halved
        .equ    JUMP, 5                 # d   : go on d bytes further
        .equ    ZERO, 6                 # d   : take the top; if it is 0, go on d bytes further
        .equ    PRINT, 7                #     : take the top and print it
        .equ    SUB, 8                  #     : the two top numbers become their difference
        .equ    HALT, 9

        .globl  _start
        .text
_start:
        la      s0, program             # the next byte of the program
        la      s1, operations
        # the numbers lie on the machine's own stack, the top one at sp
run:
        lbu     t0, 0(s0)
        addi    s0, s0, 1
        slli    t0, t0, 3
        add     t0, t0, s1
        ld      t0, 0(t0)
        jalr    x0, 0(t0)

push:
        lb      t1, 0(s0)
        addi    s0, s0, 1
        addi    sp, sp, -8
        sd      t1, 0(sp)
        j       run
dup:
        ld      t1, 0(sp)
        addi    sp, sp, -8
        sd      t1, 0(sp)
        j       run
add:
        ld      t1, 0(sp)
        ld      t2, 8(sp)
        addi    sp, sp, 8
        add     t1, t2, t1
        sd      t1, 0(sp)
        j       run
sub:
        ld      t1, 0(sp)
        ld      t2, 8(sp)
        addi    sp, sp, 8
        sub     t1, t2, t1
        sd      t1, 0(sp)
        j       run
odd:
        ld      t1, 0(sp)
        andi    t1, t1, 1
        sd      t1, 0(sp)
        j       run
halve:
        ld      t1, 0(sp)
        srli    t1, t1, 1
        sd      t1, 0(sp)
        j       run
zero:
        ld      t1, 0(sp)
        addi    sp, sp, 8
        beqz    t1, jump
        addi    s0, s0, 1
        j       run
jump:
        lb      t1, 0(s0)
        add     s0, s0, t1
        addi    s0, s0, 1
        j       run
print:
        ld      a0, 0(sp)
        addi    sp, sp, 8
        jal     ra, print_number
        j       run
halt:
        addi    a0, x0, 0
        addi    a7, x0, 1               # exit(a0)
        ecall

# Prints a0 and the end of the line. The digits are counted by taking powers of ten away.
print_number:
        la      t0, powers
        la      t1, line                # where the next digit goes
        addi    t2, x0, 0               # whether there was a digit yet
next_power:
        lwu     t3, 0(t0)
        addi    t4, x0, 0
take_away:
        bltu    a0, t3, taken
        sub     a0, a0, t3
        addi    t4, t4, 1
        j       take_away
taken:
        or      t2, t2, t4
        beqz    t2, leading_zero
        addi    t4, t4, '0'
        sb      t4, 0(t1)
        addi    t1, t1, 1
leading_zero:
        addi    t0, t0, 4
        addi    t5, x0, 1
        bne     t3, t5, next_power
        addi    t4, x0, '\n'
        sb      t4, 0(t1)
        la      a0, line
        sub     a1, t1, a0
        addi    a1, a1, 1
        addi    a7, x0, 2               # write(a0, a1)
        ecall
        ret

        .section .rodata
        .balign 8
operations:
        .dword  push, dup, add, odd, halve, jump, zero, print, sub, halt
powers:
        .word   1000000000, 100000000, 10000000, 1000000, 100000, 10000, 1000, 100, 10, 1
program:
        .byte   PUSH, 27
again:
        .byte   DUP, PRINT
        .byte   DUP, PUSH, 1, SUB, ZERO, end - . - 1
        .byte   DUP, ODD, ZERO, even - . - 1
        .byte   DUP, DUP, ADD, ADD, PUSH, 1, ADD
        .byte   JUMP, again - . - 1
even:
        .byte   HALVE
        .byte   JUMP, again - . - 1
end:
        .byte   HALT

        .bss
line:
        .space  16
