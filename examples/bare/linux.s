! Start-up and console of the same program under Linux on SPARC, for qemu-sparc: system calls 4 (write) and 1 (exit).

        .section .text.start, "ax"
        .global _start
_start:
        sub     %sp, 96, %sp
        mov     0, %fp
        call    main
        nop
        mov     1, %g1
        ta      0x10

        .text
        .global XM_write_console
XM_write_console:
        mov     %o1, %o2                ! the size
        mov     %o0, %o1                ! the text
        mov     1, %o0                  ! standard output
        mov     4, %g1
        ta      0x10
        retl
        nop

        .section .note.GNU-stack, "", @progbits
