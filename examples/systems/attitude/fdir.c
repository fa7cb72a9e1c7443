/*
 * Fault detection, isolation and recovery: a system partition. It reads the health logs of the others. After the third event of the
 * gyro it asks for the maintenance plan, in which the gyro tests itself. If the test passes, the gyro starts again and the
 * nominal plan is restored. An event of another partition is reported; the health table has recovered it.
 */
#include <xm.h>
#include "lines.h"
#include "link.h"

#define MOST_FAILURES 3
#define WATCHED 3 /* the partitions after this one */

struct state {
    unsigned mode_port, test_port;
    unsigned seen[WATCHED + 1];
    int is_testing;
};

static void print_number(const char *what, unsigned number)
{
    put_text(what);
    put_unsigned(number);
    print_line();
}

/* Reads what is new in a log. */
static void read_log(struct state *state, unsigned partition)
{
    struct xm_counts counts;
    struct xm_health_entry entry;
    if (XM_hm_status(partition, &counts) != 0)
        return;
    for (unsigned number = state->seen[partition]; number < counts.next; number++)
        if (XM_hm_read(partition, number, &entry) == 0) {
            put_text("fdir: partition ");
            put_unsigned(partition);
            put_text(" event ");
            put_unsigned(entry.event);
            put_text(" action ");
            put_unsigned(entry.action);
            print_line();
        }
    state->seen[partition] = counts.next;
}

static void give_mode(const struct state *state, unsigned mode)
{
    XM_write_sampling_message(state->mode_port, &mode, sizeof mode);
}

static void ask_for_plan(unsigned plan)
{
    xm_word before;
    if (XM_switch_sched_plan(plan, &before) != 0)
        print_number("fdir: refused plan ", plan);
    else
        print_number("fdir: ask for plan ", plan);
}

static void begin_test(struct state *state)
{
    state->is_testing = 1;
    XM_reset_partition(GYRO, XM_COLD, SELF_TEST);
}

static void end_test(struct state *state)
{
    unsigned answer;
    if (XM_receive_queuing_message(state->test_port, &answer, sizeof answer) < 0)
        return;
    state->is_testing = 0;
    print_number("fdir: gyro test ", answer);
    if (answer != TEST_PASSED)
        return;
    XM_reset_partition(GYRO, XM_COLD, 0);
    give_mode(state, MODE_NOMINAL);
    ask_for_plan(RESTORED_PLAN);
}

static void look(struct state *state)
{
    struct xm_plan_status plan;
    unsigned failures = state->seen[GYRO];
    for (unsigned partition = 1; partition <= WATCHED; partition++)
        read_log(state, partition);
    if (XM_get_plan_status(&plan) != 0)
        return;
    if (plan.plan == NOMINAL_PLAN && failures < MOST_FAILURES && state->seen[GYRO] >= MOST_FAILURES) {
        give_mode(state, MODE_SAFE);
        ask_for_plan(MAINTENANCE_PLAN);
    } else if (plan.plan == MAINTENANCE_PLAN && plan.asked_plan == XM_NONE) {
        if (state->is_testing)
            end_test(state);
        else
            begin_test(state);
    }
}

int main(void)
{
    struct state state = {0};
    int mode = XM_create_sampling_port("mode", sizeof(unsigned), XM_SOURCE);
    int test = XM_create_queuing_port("test", 2, sizeof(unsigned), XM_DESTINATION);
    if (mode < 0 || test < 0)
        return 1;
    state.mode_port = (unsigned)mode;
    state.test_port = (unsigned)test;
    give_mode(&state, MODE_NOMINAL);
    for (;;) {
        look(&state);
        XM_idle_self();
    }
}
