! The table of traps of timer.c. Only the interrupt of the hardware timer, type 0xe0, stands in it: it is counted, and
! call 34 returns from it.
! The window of a trap has the PSR and both program counters in its locals 0 to 2; all its other registers are free.

#include <xm.h>

        trap_table traps
        at_trap traps, 0xe0
        sethi   %hi(interrupts), %l3
        ld      [%l3 + %lo(interrupts)], %l4
        ba      return_from_timer
        add     %l4, 1, %l4

return_from_timer:
        st      %l4, [%l3 + %lo(interrupts)]
        return_from_trap

        .section .note.GNU-stack, "", @progbits
