! The loop by a branch that SPARC V8 lacks.
    .section .text.start, "ax"
    .global _start
_start:
    ba,pt %icc, _start
     nop
