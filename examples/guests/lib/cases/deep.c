/* A stack that grows too long is stopped, and no byte of the heap has changed before. */
#include <stdio.h>
#include <stdlib.h>
#include <string.h>

#define BLOCKS 8
#define SIZE 1000

static char *blocks[BLOCKS];

static unsigned changed(void)
{
    unsigned count = 0;
    for (int i = 0; i < BLOCKS; i++)
        for (int j = 0; j < SIZE; j++)
            count += blocks[i][j] != 0x55;
    return count;
}

static int deep(int level)
{
    volatile char room[2000];
    room[0] = (char)level;
    if (level % 10 == 0)
        printf("level %d, changed %u\n", level, changed());
    return deep(level + 1) + room[0];
}

int main(void)
{
    for (int i = 0; i < BLOCKS; i++) {
        blocks[i] = malloc(SIZE);
        memset(blocks[i], 0x55, SIZE);
    }
    return deep(1);
}
