# A program for another processor: one that calls nothing, for the machine that it is made on.
    .text
    .globl _start
_start:
    jmp _start
