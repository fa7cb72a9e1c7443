/* Constructors, destructors and the end of every program. */
#include <xm.h>
#include "start.h"

/* By guarded.ld. */
typedef void (*const function)(void);
extern function constructors_from[], constructors_to[], destructors_to[];

void run_constructors(void)
{
    for (function *next = constructors_from; next != constructors_to; next++)
        (*next)();
}

/* In the order opposite to that of the constructors. */
void run_destructors(void)
{
    for (function *next = destructors_to; next != constructors_to; next--)
        next[-1]();
}

/*
 * A status that is not 0 is the event PARTITION_ERROR, with the status as its word, so that the report shows it. With traps
 * disabled no action is a trap. The hypervisor has the partition's number.
 */
void _exit(int status)
{
    sparc_set_psr(0);
    if (status != 0)
        (void)XM_hm_raise_event((unsigned)status);
    for (;;)
        (void)XM_halt_partition((unsigned)XM_get_self());
}
