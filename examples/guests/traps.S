! A table of traps for handlers in C. Each type of trap calls
!
!     void handle_trap(unsigned type, struct xm_trap *trap);
!
! and then what was interrupted goes on as *trap says: at its pc and npc, with the condition codes and the enabling of
! traps of its psr. Until then traps are disabled. A guest names the table by sparc_set_tbr((xm_word)trap_entries).
!
! The trap has a window of its own, made free by the machine: locals 0 to 2 are the psr and both program counters, and its
! ins are the outs of what was interrupted, so that %fp is the stack pointer there. Window traps come only where a stack
! can't be used, and go to the health monitor: windows are spilled and filled without handlers.
!
! With XM_FLUSH_TRAP, the type of `ta 3`, that trap spills the windows to their stacks by call 37, and nothing else.
#include <xm.h>

        .set    trap, 96                ! where struct xm_trap stands in the frame
        .set    frame, 120

        trap_table trap_entries
        .set    type, 0
        .rept   256
        at_trap trap_entries, type
#ifdef XM_FLUSH_TRAP
        .if     type == XM_FLUSH_TRAP
        mov     37, %o0                 ! all windows but the handler's
        ta      0x70
        ba      passed
        mov     %l2, %l1
        .else
        ba      enter
        mov     type, %l3
        .endif
#else
        ba      enter
        mov     type, %l3
#endif
        .set    type, type + 1
        .endr
        .org    trap_entries + 4096

! C code may change %y and the globals 1 to 5: they are kept in this window, two of them in the frame.
enter:  sub     %fp, frame, %sp
        st      %l0, [%sp + trap]
        st      %l1, [%sp + trap + 4]
        st      %l2, [%sp + trap + 8]
        rd      %y, %l4
        mov     %g1, %l5
        mov     %g2, %l6
        mov     %g3, %l7
        std     %g4, [%sp + trap + 16]
        mov     %l3, %o0
        call    handle_trap
        add     %sp, trap, %o1
        wr      %l4, %y
        mov     %l5, %g1
        mov     %l6, %g2
        mov     %l7, %g3
        ldd     [%sp + trap + 16], %g4
        ld      [%sp + trap], %l0
        ld      [%sp + trap + 4], %l1
        ld      [%sp + trap + 8], %l2
        return_from_trap
1:      ba      1b                      ! a pc that is no multiple of 4
        nop

#ifdef XM_FLUSH_TRAP
passed: add     %l2, 4, %l2             ! on after the trap instruction
        return_from_trap
#endif

        .section .note.GNU-stack, "", @progbits
