! Start-up of a compiled guest, which is entered at its first byte.
!
! The linker gives stack_top, zeroed_from and zeroed_to (area.ld), and PARTITION, the partition's own number.
! The stack grows down from the area's end. Each window that is spilled goes to its own %sp, so 64 bytes
! stand free above the first %sp; the calling convention wants 92, and %sp is a multiple of 8.

        .section .text.start, "ax"
        .global _start
_start:
        set     stack_top, %sp
        mov     0, %fp                  ! the stack ends here
        set     zeroed_from, %o0
        set     zeroed_to, %o1
        cmp     %o0, %o1
1:      bgeu    2f                      ! what no file has is zero
        nop
        st      %g0, [%o0]
        add     %o0, 4, %o0
        ba      1b
        cmp     %o0, %o1

2:      call    main
        nop
        mov     2, %o0                  ! call 2: halt a partition
        mov     PARTITION, %o1
        ta      0x70
3:      ba      3b                      ! not reached
        nop

        .section .note.GNU-stack, "", @progbits
