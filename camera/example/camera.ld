/* A Cortex-M0 or M0+ with 256 KB of flash and 256 KB of RAM. Set the two lines below to those of your part. */
ENTRY(reset)
MEMORY
{
    FLASH (rx)  : ORIGIN = 0x00000000, LENGTH = 256K
    RAM   (rwx) : ORIGIN = 0x20000000, LENGTH = 256K
}
SECTIONS
{
    .text :
    {
        KEEP(*(.vectors))
        *(.text .text.*)
        *(.rodata .rodata.*)
        . = ALIGN(8);
    } > FLASH
    .ARM.exidx : { *(.ARM.exidx* .ARM.extab*) } > FLASH
    .data : ALIGN(8)
    {
        data_start = .;
        *(.data .data.*)
        . = ALIGN(8);
        data_end = .;
    } > RAM AT > FLASH
    data_from = LOADADDR(.data);
    .bss (NOLOAD) : ALIGN(8)
    {
        bss_start = .;
        *(.bss .bss.* COMMON)
        . = ALIGN(8);
        bss_end = .;
    } > RAM
    /* The stack is what is left. It grows down to stack_low, and nothing tells when it goes further. */
    stack_low = bss_end;
    stack_top = ORIGIN(RAM) + LENGTH(RAM);
    ASSERT(stack_top - stack_low >= 20K, "a call needs 16 KB of stack, and the program some of its own")
}
