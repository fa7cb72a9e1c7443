/*
 * The sensor. Its device gives nothing from the second reading after a start on, and a division by 0 halts the partition by
 * a health event. Where the supervisor resets it for a test, it looks at the device without dividing.
 */
#include <xm.h>
#include "lines.h"
#include "restart.h"

static volatile unsigned device;

static void tell(const char *what, unsigned number)
{
    put_text(what);
    put_unsigned(number);
    print_line();
}

static unsigned reading(unsigned count)
{
    device = count < 2 ? 4 : 0;
    return 1000 / device;
}

int main(void)
{
    struct xm_partition_status status;
    XM_get_partition_status(SENSOR, &status);
    if (status.reset_status == SELF_TEST) {
        tell("self-test: device gives ", device);
        return 0;
    }
    tell("start ", status.reset_status);
    for (unsigned count = 1;; count++) {
        tell("reading ", reading(count));
        XM_idle_self();
    }
}
