/* Constructors and destructors run, variables begin again after a warm reset, and the status is 0. */
#include <stdio.h>
#include <stdlib.h>
#include <xm.h>

static int count = 7, zero, made;
static const char *word = "begin";

__attribute__((constructor)) static void construct(void)
{
    made = 1;
}

__attribute__((destructor)) static void destruct(void)
{
    printf("destructor\n");
}

static void at_exit(void)
{
    printf("atexit\n");
}

int main(int arguments, char **names)
{
    struct xm_partition_status status;
    unsigned self = (unsigned)XM_get_self();
    XM_get_partition_status(self, &status);
    printf("resets %u: %d %d %d %s, %d %s\n", status.resets, count, zero, made, word, arguments, names[0]);
    count++;
    zero++;
    word = "changed";
    atexit(at_exit);
    if (status.resets == 0)
        XM_reset_partition(self, XM_WARM, 0);
    return 0;
}
