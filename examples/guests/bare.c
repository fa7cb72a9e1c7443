/* The start of a program without the C library, after start.S: constructors, main, destructors. */
#include "start.h"

int main(void);

void start_program(void)
{
    run_constructors();
    int status = main();
    run_destructors();
    _exit(status);
}
