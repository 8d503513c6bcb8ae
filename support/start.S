# Sets each register, calls main, and ends with `result` in a0 to a3.
        .section .text.start, "ax"
        .globl  _start, test_end
_start: la      sp, stack_top
        .irp    r, ra, gp, tp, t0, t1, t2, s0, s1, a0, a1, a2, a3
        li      \r, 0
        .endr
        call    main
        la      t0, result
        ld      a0, 0(t0)
        ld      a1, 8(t0)
        ld      a2, 16(t0)
        ld      a3, 24(t0)
test_end:
        ecall
