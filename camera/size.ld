/* The calls and what they pull in, and nothing else: for their size. */
SECTIONS
{
    .text 0 : { *(.text .text.*) *(.rodata .rodata.*) }
    .data 0x20000000 : { *(.data .data.*) }
    .bss : { *(.bss .bss.* COMMON) }
    /DISCARD/ : { *(.ARM.exidx* .ARM.extab*) }
}
