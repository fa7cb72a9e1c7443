/* A program with its code in the area at AREA_BASE, and its data and its stack in the area at DATA_BASE; each has AREA_SIZE bytes. */
ENTRY(_start)

SECTIONS
{
    . = AREA_BASE;
    .text : { *(.text.start) *(.text .text.*) }
    .rodata : ALIGN(8) { *(.rodata .rodata.*) }
    ASSERT(. <= AREA_BASE + AREA_SIZE, "no room for the code")
    . = DATA_BASE;
    .data : { *(.data .data.*) }
    .bss : ALIGN(8)
    {
        zeroed_from = .;
        *(.bss .bss.* COMMON)
        . = ALIGN(8);
        zeroed_to = .;
    }
    stack_top = DATA_BASE + AREA_SIZE - 96;
    ASSERT(. <= DATA_BASE + AREA_SIZE - 0x10000, "no room for a stack of 64 KiB")
    /DISCARD/ : { *(.comment) *(.gnu.attributes) *(.note .note.*) *(.eh_frame) }
}
