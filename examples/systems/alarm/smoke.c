/* The smoke detector: signals the siren in its second slot, twice in its fourth, and once more in its fifth, in which it halts. */
#include <xm.h>
#include "lines.h"
#include "links.h"

#define LINK SMOKE
#include "answer.h"

int main(void)
{
    static const unsigned char signals[] = {0, 1, 0, 2, 1};
    hear(1 << SMOKE);
    for (unsigned slot = 1;; slot++) {
        print_answer(slot);
        for (unsigned left = signals[slot - 1]; left; left--)
            XM_raise_ipvi(SMOKE);
        if (slot == sizeof signals)
            return 0;
        XM_idle_self();
    }
}
