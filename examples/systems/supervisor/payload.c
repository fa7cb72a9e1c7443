/* A partition that nothing happens to: a line in each of its slots. */
#include <xm.h>
#include "lines.h"

int main(void)
{
    for (unsigned slot = 1;; slot++) {
        put_text("picture ");
        put_unsigned(slot);
        print_line();
        XM_idle_self();
    }
}
