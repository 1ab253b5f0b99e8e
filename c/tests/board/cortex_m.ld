/* A Cortex-M with a stack of STACK octets and memory of MEMORY octets, by --defsym. The stack comes first, so where it
 * is too short the program faults and writes into nothing else. */
ENTRY(start)
SECTIONS
{
    . = 0;
    .text : { KEEP(*(.vectors)) *(.text*) *(.rodata*) . = ALIGN(8); }
    data_kept = .;
    stack_top = 0x20000000 + STACK;
    . = stack_top;
    .data : AT(data_kept) { data_begin = .; *(.data*) . = ALIGN(8); data_end = .; }
    .bss : { bss_begin = .; *(.bss*) *(COMMON) . = ALIGN(8); bss_end = .; }
    ASSERT(bss_end <= 0x20000000 + MEMORY, "the board does not fit into its memory")
    /DISCARD/ : { *(.ARM.exidx*) *(.ARM.attributes) *(.comment) }
}
