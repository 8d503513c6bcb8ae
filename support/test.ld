/* A segment for each kind of memory. The stack stands below the data, so that a test that overruns it traps. Each of its words
   is a data word, and the word bound grows with them: --defsym=STACK_SIZE=2048 makes it smaller. The stub of board/ uses the
   16 MiB below TEST_START. */
ENTRY(_start)
PHDRS { text PT_LOAD FLAGS(5); rodata PT_LOAD FLAGS(4); data PT_LOAD FLAGS(6); }
SECTIONS {
    . = DEFINED(TEST_START) ? TEST_START : 0x81000000;
    .text : { *(.text.start) *(.text .text.*) } :text
    . = ALIGN(4096);
    .rodata : { *(.rodata .rodata.* .srodata .srodata.*) . = ALIGN(8); } :rodata
    . = ALIGN(4096);
    .stack (NOLOAD) : { stack_bottom = .; . += DEFINED(STACK_SIZE) ? STACK_SIZE : 16384; . = ALIGN(16); stack_top = .; } :data
    .data : { *(.data .data.* .sdata .sdata.*) } :data
    .bss : { *(.sbss .sbss.* .bss .bss.* COMMON) . = ALIGN(16); } :data
    .init_array : { KEEP(*(.preinit_array .init_array .init_array.* .ctors .ctors.*)) } :data
    /DISCARD/ : { *(.eh_frame .eh_frame_hdr .note .note.*) }
}
ASSERT(SIZEOF(.init_array) == 0, "start.S runs no constructors: call a function of your own from main")
