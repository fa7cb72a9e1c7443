/*
 * The siren: tells in each of its slots which detectors signalled, and signals back to each. It does not listen to the door
 * before its fourth slot.
 */
#include <xm.h>
#include "lines.h"
#include "links.h"

static volatile unsigned heard[2];

void handle_trap(unsigned type, struct xm_trap *trap)
{
    unsigned link = type - XM_INTERRUPT_TRAP(XM_LINK);
    (void)trap;
    if (link > DOOR)
        return;
    heard[link]++;
    XM_raise_ipvi(link);
}

static void tell(const char *name, volatile unsigned *count)
{
    if (!*count)
        return;
    put_text(name);
    put_unsigned(*count);
    *count = 0;
}

int main(void)
{
    hear(1 << SMOKE);
    for (unsigned slot = 1; slot < 8; slot++) {
        if (slot == 4)
            hear(1 << DOOR);
        begin_line(slot);
        if (!heard[SMOKE] && !heard[DOOR])
            put_text(" quiet");
        tell(" smoke ", &heard[SMOKE]);
        tell(" door ", &heard[DOOR]);
        print_line();
        XM_idle_self();
    }
    return 0;
}
