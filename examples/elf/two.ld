/* A partition's program in two segments: code at the start of the area at 0x40180000, data 64 KiB behind it. */
ENTRY(_start)

PHDRS
{
    code PT_LOAD FLAGS(5);
    data PT_LOAD FLAGS(6);
}

SECTIONS
{
    . = 0x40180000;
    .text : { *(.text.start) *(.text .text.*) *(.rodata .rodata.*) } :code
    . = 0x40190000;
    .data : { *(.data .data.*) } :data
    .bss : ALIGN(8) { *(.bss .bss.* COMMON) } :data
    /DISCARD/ : { *(.comment) *(.gnu.attributes) *(.note .note.*) *(.eh_frame) }
}
