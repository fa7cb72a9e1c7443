/* A program for the area of AREA_SIZE bytes at AREA_BASE, entered at the area's first byte. */
ENTRY(_start)

SECTIONS
{
    . = AREA_BASE;
    .text : { *(.text.start) *(.text .text.*) }
    .rodata : ALIGN(8) { *(.rodata .rodata.*) }
    .data : ALIGN(8) { *(.data .data.*) }
    .bss : ALIGN(8)
    {
        zeroed_from = .;
        *(.bss .bss.* COMMON)
        . = ALIGN(8);
        zeroed_to = .;
    }
    stack_top = AREA_BASE + AREA_SIZE - 96;
    ASSERT(. <= AREA_BASE + AREA_SIZE - 0x10000, "no room for a stack of 64 KiB")
    /DISCARD/ : { *(.comment) *(.gnu.attributes) *(.note .note.*) *(.eh_frame) }
}
