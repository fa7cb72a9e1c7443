/* The other partition: in each slot a line with how often it was reset, and a checksum of its own memory. */
#include <xm.h>
#include "lines.h"

enum { OWN = 1 };

static unsigned char bytes[64];

static unsigned checksum(void)
{
    unsigned sum = 1;
    for (unsigned i = 0; i < sizeof bytes; i++)
        sum = (sum << 5 | sum >> 27) ^ bytes[i];
    return sum;
}

int main(void)
{
    struct xm_partition_status status;
    for (unsigned slot = 1;; slot++) {
        bytes[slot % sizeof bytes] = (unsigned char)slot;
        XM_get_partition_status(OWN, &status);
        put_text("slot ");
        put_unsigned(slot);
        put_text(" resets ");
        put_unsigned(status.resets);
        put_text(" checksum ");
        put_hex(checksum());
        print_line();
        XM_idle_self();
    }
}
