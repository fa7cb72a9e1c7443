! Start-up on a processor alone, without a hypervisor: an ERC32 or a LEON3, which have eight windows. The table of traps
! stands at the area's start, a multiple of 4096; windows are spilled and filled by its handlers, and any other trap
! stops the processor. Where main returns, `ta 0` with traps disabled ends the simulation.

        .macro  stop_at types
        .rept   \types
        ta      0
        nop
        nop
        nop
        .endr
        .endm

        .section .text.start, "ax"
        .global _start
_start: ba      start                   ! 0: reset
        nop
        nop
        nop
        stop_at 4
        ba      overflow                ! 5
        rd      %wim, %l3
        nop
        nop
        ba      underflow               ! 6
        rd      %wim, %l3
        nop
        nop
        stop_at 249

start:  wr      %g0, 0xfc0, %psr        ! supervisor, no interrupts, traps disabled, window 0
        wr      %g0, 1 << 1, %wim       ! six more windows are free
        set     _start, %g1
        wr      %g1, %tbr
        nop
        nop
        nop
        wr      %g0, 0xfe0, %psr        ! traps enabled
        nop
        nop
        nop
        set     stack_top, %sp
        mov     0, %fp
        set     zeroed_from, %o0
        set     zeroed_to, %o1
        cmp     %o0, %o1
1:      bgeu    2f
        nop
        st      %g0, [%o0]
        add     %o0, 4, %o0
        ba      1b
        cmp     %o0, %o1
2:      call    main
        nop
        wr      %g0, 0xfc0, %psr
        nop
        nop
        nop
        ta      0

! The window below the invalid one is stored at its own stack pointer, and is the invalid one then.
overflow:
        mov     %g1, %l7
        sll     %l3, 7, %l4
        srl     %l3, 1, %g1
        or      %l4, %g1, %g1
        save
        wr      %g1, %wim
        nop
        nop
        nop
        std     %l0, [%sp]
        std     %l2, [%sp + 8]
        std     %l4, [%sp + 16]
        std     %l6, [%sp + 24]
        std     %i0, [%sp + 32]
        std     %i2, [%sp + 40]
        std     %i4, [%sp + 48]
        std     %i6, [%sp + 56]
        restore
        mov     %l7, %g1
        jmp     %l1
        rett    %l2

! The invalid window is loaded from its stack pointer, and the one above it is the invalid one then.
underflow:
        sll     %l3, 1, %l4
        srl     %l3, 7, %l5
        or      %l4, %l5, %l5
        wr      %l5, %wim
        nop
        nop
        nop
        restore
        restore
        ldd     [%sp], %l0
        ldd     [%sp + 8], %l2
        ldd     [%sp + 16], %l4
        ldd     [%sp + 24], %l6
        ldd     [%sp + 32], %i0
        ldd     [%sp + 40], %i2
        ldd     [%sp + 48], %i4
        ldd     [%sp + 56], %i6
        save
        save
        jmp     %l1
        rett    %l2

        .section .note.GNU-stack, "", @progbits
