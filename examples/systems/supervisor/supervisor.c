/*
 * The supervisor, a system partition. In each of its slots it reads what is new in the sensor's health log. After the first
 * two failures it resets the sensor; after the third it asks for the maintenance plan, in which it has the sensor test itself.
 */
#include <xm.h>
#include "lines.h"
#include "restart.h"

#define MOST_FAILURES 3

static void tell(const char *what, unsigned number)
{
    put_text(what);
    put_unsigned(number);
    print_line();
}

static void tell_entry(const struct xm_health_entry *entry)
{
    put_text("sensor: event ");
    put_unsigned(entry->event);
    put_text(entry->action == XM_HM_AC_HALT ? " halted it" : " went on");
    print_line();
}

/* Reads the sensor's entries from this number on, and gives the number of the next one that comes. */
static unsigned read_health(unsigned from)
{
    struct xm_counts counts;
    struct xm_health_entry entry;
    if (XM_hm_status(SENSOR, &counts) != 0)
        return from;
    for (unsigned number = from; number < counts.next; number++)
        if (XM_hm_read(SENSOR, number, &entry) == 0)
            tell_entry(&entry);
    return counts.next;
}

/* The sensor failed so often: it starts again, or the maintenance plan is asked for from the next frame on. */
static void answer(unsigned failures)
{
    xm_word current;
    if (failures < MOST_FAILURES) {
        tell("sensor: restart ", failures);
        XM_reset_partition(SENSOR, XM_WARM, failures);
    } else {
        XM_switch_sched_plan(MAINTENANCE_PLAN, &current);
        tell("maintenance after plan ", current);
    }
}

int main(void)
{
    struct xm_plan_status plan;
    unsigned failures = 0;
    for (;;) {
        if (XM_get_plan_status(&plan) == 0 && plan.plan == MAINTENANCE_PLAN)
            break;
        unsigned next = read_health(failures);
        if (next > failures)
            answer(next);
        failures = next;
        XM_idle_self();
    }
    tell("plan ", plan.plan);
    XM_reset_partition(SENSOR, XM_COLD, SELF_TEST);
    return 0;
}
