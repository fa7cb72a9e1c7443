/* The door's contact: asks for a link that it does not have, and signals the siren in its third slot and the two behind. */
#include <xm.h>
#include "lines.h"
#include "links.h"

#define LINK DOOR
#include "answer.h"

int main(void)
{
    hear(1 << DOOR);
    put_text("link 0 from here: ");
    put_signed(XM_raise_ipvi(SMOKE));
    print_line();
    for (unsigned slot = 1; slot < 7; slot++) {
        print_answer(slot);
        if (slot >= 3 && slot <= 5)
            XM_raise_ipvi(DOOR);
        XM_idle_self();
    }
    return 0;
}
