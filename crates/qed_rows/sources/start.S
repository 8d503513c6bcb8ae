# Sets the stack and every other register, calls main, and ends with the results in a0 to a3.
        .section .text.start, "ax"
        .globl  _start, test_end
_start: li      ra, 0
        la      sp, stack_top
        li      gp, 0
        li      tp, 0
        li      t0, 0
        li      t1, 0
        li      t2, 0
        li      s0, 0
        li      s1, 0
        li      a0, 0
        li      a1, 0
        li      a2, 0
        li      a3, 0
        call    main
        la      t0, result
        ld      a0, 0(t0)
        ld      a1, 8(t0)
        ld      a2, 16(t0)
        ld      a3, 24(t0)
test_end:
        ecall
