! The start of every program; guarded.ld has the places.
!
! A warm reset keeps the memory. So variables get what they begin with each time: from the copy in the code's area, or zero.
! Windows are spilled to 64 bytes at their own %sp, and the calling convention wants 92: 96 are free above the first %sp.

        .section .text.start, "ax"
        .global _start
_start:
        set     stack_top, %sp
        mov     0, %fp                  ! the stack ends here
        set     data_copy, %o0
        set     data_from, %o1
        set     data_to, %o2
1:      ldd     [%o0], %o4              ! eight bytes at least
        std     %o4, [%o1]
        add     %o1, 8, %o1
        cmp     %o1, %o2
        bne     1b
        add     %o0, 8, %o0

        set     zeroed_from, %o0
        set     zeroed_to, %o1
        mov     0, %g1
        cmp     %o0, %o1
2:      bgeu    3f
        nop
        std     %g0, [%o0]
        add     %o0, 8, %o0
        ba      2b
        cmp     %o0, %o1

3:      call    start_program           ! it does not come back
        nop

        .section .note.GNU-stack, "", @progbits
