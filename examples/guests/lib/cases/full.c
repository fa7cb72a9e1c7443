/* Where the heap is full malloc answers a null pointer, and what it gave is whole. */
#include <errno.h>
#include <stdio.h>
#include <stdlib.h>

int main(void)
{
    unsigned blocks = 0;
    while (malloc(100000) != NULL)
        blocks++;
    printf("%u blocks, no memory %d\n", blocks, errno == ENOMEM);
    return 0;
}
