/* The console of a program of this machine: its standard output. */
#include "console.h"
#include <stdio.h>

int XM_write_console(const char *text, unsigned size)
{
    return (int)fwrite(text, 1, size, stdout);
}
