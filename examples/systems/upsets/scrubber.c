/*
 * The scrubber, a system partition: at the end of each round it resets one replica cold, each in its turn. Its memory is loaded
 * from its image again, so what flipped there is gone, whether anybody noticed it or not.
 */
#include <xm.h>
#include "lines.h"
#include "round.h"

int main(void)
{
    for (;;) {
        unsigned round = round_now(), replica = 1 + round % REPLICAS;
        begin_line(round);
        put_text("replica ");
        put_unsigned(replica);
        put_text(" is loaded again");
        print_line();
        XM_reset_partition(replica, XM_COLD, round);
        XM_idle_self();
    }
}
