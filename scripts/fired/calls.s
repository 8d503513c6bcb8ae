        addi  x2, x0, 5
        lui   x8, 0x20
again:
        addi  x10, x2, 1
        jal   x1, twice
        add   x9, x9, x10
        sd    x9, 8(x8)
        addi  x2, x2, -1
        bne   x2, x0, again
        ecall
twice:
        slli  x11, x10, 1
        ld    x12, 0(x8)
        add   x10, x11, x12
        jalr  x0, 0(x1)
.data
        .word64 7
        .word64 0
