/* The region file, as it is, in flash. */
    .syntax unified
    .section .rodata.region, "a"
    .global region_file, region_file_end
region_file:
    .incbin "sealed.region"
region_file_end:
    .section .note.GNU-stack, "", %progbits
