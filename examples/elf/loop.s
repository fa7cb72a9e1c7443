! One instruction for ever: ba to itself, with a nop in its delay slot.
    .section .text.start, "ax"
    .global _start
_start:
    ba _start
     nop
