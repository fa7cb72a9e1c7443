/*
 * A partition that does everything wrong, one thing after each start. The first four end in a health event, after which
 * the partition starts again warm (misdeeds.xml); how often it was reset says what comes next. The last two have no event:
 * calls that are refused, and then a console that is written to without end.
 */
#include <xm.h>
#include "lines.h"

enum { OWN = 0, OTHER = 1 };
#define HYPERVISOR 0x40000000u
#define OTHERS_AREA 0x40180000u

static void say(const char *what)
{
    put_text(what);
    print_line();
}

static void store_at(unsigned address)
{
    *(volatile unsigned *)address = 0xdeadbeef;
}

static void call_at(unsigned address)
{
    ((void (*)(void))address)();
}

/* Calls itself without end. Each call takes 64 KiB and stores nothing there, and the stack has 64 KiB. */
static unsigned run_away(unsigned depth)
{
    static unsigned (*volatile again)(unsigned) = run_away;
    char room[0x10000];
    __asm__ volatile("" : : "r"(room));
    return again(depth + 1) + depth;
}

static void tell_result(const char *what, int result)
{
    put_text(what);
    put_signed(result);
    print_line();
}

static void wild_calls(void)
{
    xm_word word;
    tell_result("halt the other: ", XM_halt_partition(OTHER));
    tell_result("reset the other: ", XM_reset_partition(OTHER, XM_COLD, 0));
    tell_result("reset all: ", XM_reset_system(XM_COLD));
    tell_result("another plan: ", XM_switch_sched_plan(1, &word));
    tell_result("time into the other: ", XM_get_time(XM_HW_CLOCK, (xm_time *)OTHERS_AREA));
    tell_result("print the other: ", XM_write_console((const char *)OTHERS_AREA, 100));
    tell_result("call 99: ", xm_call_0(99));
}

static void flood(void)
{
    for (;;)
        XM_write_console("flood\n", 6);
}

int main(void)
{
    struct xm_partition_status status;
    XM_get_partition_status(OWN, &status);
    switch (status.resets) {
    case 0:
        say("store into the hypervisor");
        store_at(HYPERVISOR);
        break;
    case 1:
        say("store into the other");
        store_at(OTHERS_AREA);
        break;
    case 2:
        say("jump into the other");
        call_at(OTHERS_AREA);
        break;
    case 3:
        say("run away with the stack");
        run_away(0);
        break;
    }
    wild_calls();
    flood();
    return 0;
}
