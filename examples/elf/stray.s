! The loop, and a word that the linker is told to put outside the areas of both partitions.
    .section .text.start, "ax"
    .global _start
_start:
    ba _start
     nop

    .section .stray, "a"
    .word 1
