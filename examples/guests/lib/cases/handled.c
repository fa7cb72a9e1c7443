/* Traps of an application in XtratuM's names: a timer, and a division by 0 that is skipped. */
#include <stdio.h>
#include <xmcompat.h>

static volatile int ticks, divisions;
static volatile int zero, quotient;

static void Tick(trapCtxt_t *context)
{
    (void)context;
    ticks++;
}

static void Skip(trapCtxt_t *context)
{
    divisions++;
    context->pc = context->npc;
    context->npc += 4;
}

void PartitionMain(void)
{
    InstallTrapHandler(XAL_XMEXT_TRAP(XM_VT_EXT_HW_TIMER), Tick);
    InstallTrapHandler(0x2a, Skip);
    XM_clear_irqmask(0, 1 << XM_VT_EXT_HW_TIMER);
    XM_set_timer(XM_HW_CLOCK, 5000, 1000);
    while (ticks < 3)
        XM_idle_self();
    quotient = 42 / zero;
    printf("ticks %d, divisions %d\n", ticks, divisions);
}
