/* The console of a partition: hypercall 32. */
#include "console.h"

int XM_write_console(const char *text, unsigned size)
{
    register unsigned number __asm__("o0") = 32;
    register const char *from __asm__("o1") = text;
    register unsigned count __asm__("o2") = size;
    __asm__ volatile("ta 0x70" : "+r"(number) : "r"(from), "r"(count) : "memory");
    return (int)number;
}
