/* A status that is not 0 is a partition error, and what was printed before it is there. */
#include <stdio.h>
#include <stdlib.h>

int main(void)
{
    printf("no end of line");
    exit(42);
}
