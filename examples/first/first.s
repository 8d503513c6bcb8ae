        lui   x5, 0x20          # the data stand at 0x20000
        addi  x6, x0, 4
        addi  x10, x0, 0
next:
        ld    x7, 0(x5)
        add   x10, x10, x7
        addi  x5, x5, 8
        addi  x6, x6, -1
        bne   x6, x0, next
        sd    x10, 0(x5)
        ecall
.data
        .word64 1
        .word64 2
        .word64 3
        .word64 4
        .word64 0
