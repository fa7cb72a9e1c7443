/*
 * A program in three areas of its partition, one after the other: the stack, below which the partition has nothing, so that a
 * stack that grows too long is stopped; data and heap; and code, which is read-only. `areas` gives their addresses and sizes
 * from the description, or those of three parts of the one area of `bare`, which guard nothing. What variables begin with is in
 * the code's area, too, where `copy_data` puts it after linking: the start-up code copies it.
 */
ENTRY(_start)

PHDRS
{
    data PT_LOAD FLAGS(6);
    code PT_LOAD FLAGS(5);
}

SECTIONS
{
    stack_top = STACK_BASE + STACK_SIZE - 96;
    . = DATA_BASE;
    .data : ALIGN(8)
    {
        data_from = .;
        *(.data .data.* .sdata .sdata.*)
        LONG(0)
        . = ALIGN(8);
        data_to = .;
    } :data
    .bss : ALIGN(8)
    {
        zeroed_from = .;
        *(.bss .bss.* .sbss .sbss.* COMMON)
        . = ALIGN(8);
        zeroed_to = .;
    } :data
    heap_from = .;
    heap_to = DATA_BASE + DATA_SIZE;
    ASSERT(heap_from <= heap_to, "no room for the data")

    . = CODE_BASE;
    .text : { KEEP(*(.text.start)) *(.text .text.*) } :code
    .rodata : ALIGN(8) { *(.rodata .rodata.* .gcc_except_table .gcc_except_table.*) } :code
    .constructors : ALIGN(8)
    {
        constructors_from = .;
        KEEP(*(SORT_BY_INIT_PRIORITY(.init_array.*)))
        KEEP(*(.init_array .ctors))
        constructors_to = .;
        KEEP(*(SORT_BY_INIT_PRIORITY(.fini_array.*)))
        KEEP(*(.fini_array .dtors))
        destructors_to = .;
    } :code
    .data_copy : ALIGN(8)
    {
        data_copy = .;
        LONG(0)
        . = data_copy + SIZEOF(.data);
    } :code
    ASSERT(. <= CODE_BASE + CODE_SIZE, "no room for the code")
    /DISCARD/ : { *(.comment) *(.gnu.attributes) *(.note .note.*) *(.eh_frame .eh_frame.*) }
}
