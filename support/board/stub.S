# What stands on the board beside an output: it starts first, in machine mode, and every trap comes here.
#ifndef BOOT_HART
#define BOOT_HART 0
#endif
        .option norelax
        .section .text.start, "ax"
        .globl  reset, enter
reset:  csrw    mie, zero               # no interrupts: none is part of the test
        csrci   mstatus, 8
        csrr    t0, mhartid
        li      t1, BOOT_HART
        bne     t0, t1, park            # the other harts stay here
        la      sp, stub_stack
        la      t0, trap
        csrw    mtvec, t0               # direct mode: all traps go to `trap`
        call    load                    # copies the output's segments; its entry comes back in a0
        j       enter

# Enters the output at a0. Registers may hold anything: its first words set them.
enter:  fence.i                         # what was stored is fetched
        la      t0, registers
        csrw    mscratch, t0
        jr      a0

# Saves x1 to x31 as the output left them, and reports what came.
        .balign 4
trap:   csrrw   x31, mscratch, x31
        .irp    r, 1,2,3,4,5,6,7,8,9,10,11,12,13,14,15,16,17,18,19,20,21,22,23,24,25,26,27,28,29,30
        sd      x\r, 8 * \r(x31)
        .endr
        mv      a2, x31
        csrr    t0, mscratch
        sd      t0, 8 * 31(a2)
        la      sp, stub_stack
        csrr    a0, mcause
        csrr    a1, mepc
        call    report                  # report(cause, pc, registers), which stops the board
park:   wfi
        j       park

# The output, as `qed transform` stored it.
        .section .rodata.output, "a"
        .globl  output
        .balign 8
output: .incbin OUTPUT

        .bss
        .balign 16
registers: .skip 8 * 32
        .skip   4096
stub_stack:
