# Jumps to itself.
        .globl  _start
_start:
        jal     x0, _start
