/* Constructors run in the order of their priorities, destructors in the opposite order, after the functions of atexit. */
#include <stdio.h>
#include <stdlib.h>

#define PRINTS(kind, name, text) \
    __attribute__((kind)) static void name(void) \
    { \
        printf(text "\n"); \
    }

PRINTS(constructor, begin_last, "constructor")
PRINTS(constructor(102), begin_second, "constructor 102")
PRINTS(constructor(101), begin_first, "constructor 101")
PRINTS(destructor(101), end_last, "destructor 101")
PRINTS(destructor, end_first, "destructor")
PRINTS(destructor(102), end_second, "destructor 102")

static void at_exit(void)
{
    printf("atexit\n");
}

int main(void)
{
    atexit(at_exit);
    printf("main\n");
    return 0;
}
