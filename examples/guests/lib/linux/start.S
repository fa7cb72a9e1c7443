! Start-up of the same program under Linux on SPARC, for qemu-sparc. The system has set the stack and loaded the data.

        .section .text.start, "ax"
        .global _start
_start:
        sub     %sp, 96, %sp
        mov     0, %fp
        call    start_program
        nop

! int linux_call(int number, int a, int b, int c): a system call; what it gives where it is refused is negative.
        .text
        .global linux_call
linux_call:
        mov     %o0, %g1
        mov     %o1, %o0
        mov     %o2, %o1
        mov     %o3, %o2
        ta      0x10
        bcs,a   1f
        neg     %o0
1:      retl
        nop

        .section .note.GNU-stack, "", @progbits
