# The start of a C program and of a C thread. The linker makes addresses relative to gp, which is 0 at the
# start of both, so it is set first.
        .globl  _start, oscar_thread_start

_start:
        .option push
        .option norelax
        la      gp, __global_pointer$
        .option pop
        jal     ra, main
        addi    a7, x0, 1               # exit(what main answers)
        ecall

oscar_thread_start:
        .option push
        .option norelax
        la      gp, __global_pointer$
        .option pop
        ld      t0, 0(sp)
        jalr    ra, 0(t0)
        addi    a7, x0, 9               # done(what the function answers)
        ecall
