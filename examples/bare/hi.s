! A partition that writes "hi" to its console and halts.
!
! The image is loaded and entered at 0x40000000, the start of the partition's one area.
! `ta 0x70` is a hypercall: its number is in %o0, its arguments are in %o1 and %o2, and its
! result comes back in %o0. Each line below is one tick. Its comment has its address and its word.
!
! hi.bin is what this makes of it:
!   llvm-mc --triple=sparc --filetype=obj hi.s -o hi.o
!   llvm-objcopy -O binary --only-section=.text hi.o hi.bin

        sethi   %hi(0x40000000), %o1    ! 40000000  13100000
        or      %o1, 0x20, %o1          ! 40000004  92126020  %o1 = 0x40000020, where the text stands
        mov     2, %o2                  ! 40000008  94102002  %o2 = 2, how many bytes it has
        mov     32, %o0                 ! 4000000c  90102020  call 32: write to the console
        ta      0x70                    ! 40000010  91d02070  prints [4] P0 CON hi

        mov     2, %o0                  ! 40000014  90102002  call 2: halt a partition
        mov     0, %o1                  ! 40000018  92102000  %o1 = 0, this partition's own number
        ta      0x70                    ! 4000001c  91d02070  prints [7] P0 HALT

        .ascii  "hi"                    ! 40000020  6869
