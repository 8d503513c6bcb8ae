        .globl  _start
_start: la      x5, numbers
        li      x6, 4
        li      x10, 0
next:   ld      x7, 0(x5)
        add     x10, x10, x7
        addi    x5, x5, 8
        addi    x6, x6, -1
        bnez    x6, next
        la      x5, total
        sd      x10, 0(x5)
        ecall

        .data
        .balign 8
numbers: .dword 1, 2, 3, 4
total:  .dword  0
