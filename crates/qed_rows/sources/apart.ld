/* Code, constants, data and zeros, each in a segment of its own. */
ENTRY(_start)
PHDRS { text PT_LOAD FLAGS(5); rodata PT_LOAD FLAGS(4); data PT_LOAD FLAGS(6); bss PT_LOAD FLAGS(6); }
SECTIONS {
    . = 0x20000;
    .text : { *(.text.start) *(.text .text.*) } :text
    . = ALIGN(4096);
    .rodata : { *(.rodata .rodata.* .srodata .srodata.*) . = ALIGN(8); } :rodata
    . = ALIGN(4096);
    .data : { *(.data .data.* .sdata .sdata.*) } :data
    . = ALIGN(4096) + 0x3000;
    .bss : { *(.sbss .sbss.* .bss .bss.* COMMON) . = ALIGN(16); . += 2048; stack_top = .; } :bss
}
