/* A trap that nothing handles: the event of the trap, and the type of the trap as the status. */
#include <stdio.h>

static volatile int zero;

int main(void)
{
    printf("before\n");
    printf("%d\n", 42 / zero);
    return 0;
}
