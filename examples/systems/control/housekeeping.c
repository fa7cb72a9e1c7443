/* The other partition: a line every second slot. */
#include <xm.h>
#include "lines.h"

int main(void)
{
    for (unsigned slot = 1;; slot++) {
        if (slot % 2 == 0) {
            put_text("housekeeping after ");
            put_unsigned(slot);
            put_text(" frames");
            print_line();
        }
        XM_idle_self();
    }
}
