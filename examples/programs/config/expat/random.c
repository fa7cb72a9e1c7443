/* The salt of expat's tables, the same each time: one from the clock would make its steps depend on when it runs. */
#include <stdlib.h>
#include <string.h>

void arc4random_buf(void *buffer, size_t size)
{
    memset(buffer, 42, size);
}
