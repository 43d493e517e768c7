/*
 * The memory of the board mps2-an386: the program below 4 MB, the stack in the memory at 0x20000000, buffers in the 16 MB at
 * 0x21000000. Nothing has a first value but zero. The stack is not the library's alone: a case of the lookups over records has
 * its line's tokens (33 KB) and up to 300 records in frames of its own.
 */
MEMORY
{
    code (rx)  : ORIGIN = 0x00000000, LENGTH = 4M
    stack (rw) : ORIGIN = 0x20000000, LENGTH = 256K
    data (rw)  : ORIGIN = 0x21000000, LENGTH = 16M
}

stack_floor = ORIGIN(stack);
stack_top = ORIGIN(stack) + LENGTH(stack);

ENTRY(start)

SECTIONS
{
    .text : { KEEP(*(.vectors)) *(.text .text.*) *(.rodata .rodata.*) } > code
    .ARM.exidx : { *(.ARM.exidx*) } > code
    .data : { *(.data .data.*) } > data
    .bss (NOLOAD) : { bss_start = .; *(.bss .bss.* COMMON) . = ALIGN(4); bss_end = .; } > data
    ASSERT(SIZEOF(.data) == 0, "nothing sets first values")
}
