/* The stub, with the output inside it, stands in the first 16 MiB of the board's memory; the test and its output stand behind
   that. */
ENTRY(reset)
PHDRS { stub PT_LOAD FLAGS(7); }
SECTIONS {
    . = 0x80000000;
    .stub : { *(.text.start) *(.text .text.*) *(.rodata .rodata.* .srodata .srodata.*) *(.data .data.* .sdata .sdata.*)
              *(.bss .bss.* .sbss .sbss.* COMMON) } :stub
    ASSERT(. <= 0x81000000, "the output is too large for this place")
}
