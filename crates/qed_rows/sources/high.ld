/* The memory of a usual board begins at 0x80000000. The data come first, then the constants, and the code last. */
ENTRY(_start)
PHDRS { data PT_LOAD FLAGS(6); rodata PT_LOAD FLAGS(4); text PT_LOAD FLAGS(5); }
SECTIONS {
    . = 0x80000000;
    .data : { *(.data .data.* .sdata .sdata.*) } :data
    .bss : { *(.sbss .sbss.* .bss .bss.* COMMON) . = ALIGN(16); . += 2048; stack_top = .; } :data
    . = ALIGN(4096);
    .rodata : { *(.rodata .rodata.* .srodata .srodata.*) . = ALIGN(8); } :rodata
    . = ALIGN(4096);
    .text : { *(.text.start) *(.text .text.*) } :text
}
