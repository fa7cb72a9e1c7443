/* The standard output and the error stream of a program: the console. */
#include <xm.h>
#include <errno.h>
#include "program.h"

int program_output(int stream, const char *from, size_t size)
{
    size_t done = 0;
    (void)stream;
    while (done < size) {
        size_t piece = size - done < XM_CONSOLE_BYTES ? size - done : XM_CONSOLE_BYTES;
        if (XM_write_console(from + done, piece) < 0) {
            errno = EIO;
            return -1;
        }
        done += piece;
    }
    return (int)size;
}
