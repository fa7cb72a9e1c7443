/*
 * A replica: in each of its slots it computes the round's value from a table, prints it, and writes it for the voter. Three
 * partitions run it. After a reset it starts here, and the round is that of the clock.
 */
#include <xm.h>
#include "lines.h"
#include "round.h"

static unsigned weights[8] = {3, 1, 4, 1, 5, 9, 2, 6};

static unsigned value_of(unsigned round)
{
    unsigned value = 0;
    for (unsigned k = 0; k < 8; k++)
        value = 10 * value % 9973 + weights[k] * (round + k);
    return value;
}

int main(void)
{
    int out = made(XM_create_sampling_port("out", sizeof(struct result), XM_SOURCE));
    for (;;) {
        struct result result = {round_now(), 0};
        result.value = value_of(result.round);
        begin_line(result.round);
        put_unsigned(result.value);
        print_line();
        XM_write_sampling_message(out, &result, sizeof result);
        XM_idle_self();
    }
}
