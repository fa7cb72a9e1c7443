/* A store into the code is stopped. */
#include <stdio.h>

int main(void)
{
    printf("store\n");
    *(volatile unsigned *)main = 0;
    printf("not reached\n");
    return 0;
}
