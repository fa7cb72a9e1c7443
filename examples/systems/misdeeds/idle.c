/* In the place of rogue.c: it does nothing at all. */
#include <xm.h>

int main(void)
{
    for (;;)
        XM_idle_self();
}
