/* The console of a program of this machine, by the name of the hypercall: its standard output. */
#ifndef XM_H
#define XM_H

#include <stdio.h>

static inline int XM_write_console(const char *text, unsigned size)
{
    return (int)fwrite(text, 1, size, stdout);
}

#endif
