/*
 * Calls far deeper than the eight register windows: the windows are spilled to the stack and filled from it
 * by the machine, and what each call keeps has to be there when it comes back.
 */
#include <xm.h>
#include "lines.h"

/* Each call keeps two values, one in a register and one behind a pointer to its frame. */
static __attribute__((noinline)) unsigned down(unsigned depth, unsigned *above)
{
    unsigned kept = depth * 2654435761u, here = *above ^ kept;
    if (depth == 0)
        return here;
    unsigned below = down(depth - 1, &here);
    *above += below;
    return (below << 1 | below >> 31) ^ kept ^ here;
}

static __attribute__((noinline)) unsigned ackermann(unsigned m, unsigned n)
{
    if (m == 0)
        return n + 1;
    return ackermann(m - 1, n == 0 ? 1 : ackermann(m, n - 1));
}

/* Two that call each other, and have something to do afterwards. */
static __attribute__((noinline)) unsigned odds(unsigned n);

static __attribute__((noinline)) unsigned evens(unsigned n)
{
    return n == 0 ? 1 : odds(n - 1) * 2 + n;
}

static __attribute__((noinline)) unsigned odds(unsigned n)
{
    return n == 0 ? 7 : evens(n - 1) * 3 ^ n;
}

int main(void)
{
    static const unsigned depths[] = {1, 6, 7, 8, 9, 100, 400};
    for (unsigned i = 0; i < sizeof depths / sizeof depths[0]; i++) {
        unsigned top = 1;
        put_text("depth ");
        put_unsigned(depths[i]);
        put_text(" gives ");
        put_hex(down(depths[i], &top));
        put_char(' ');
        put_hex(top);
        print_line();
    }
    put_text("ackermann 2 9 ");
    put_unsigned(ackermann(2, 9));
    put_text(" evens 301 ");
    put_hex(evens(301));
    put_text(" odds 300 ");
    put_hex(odds(300));
    print_line();
    return 0;
}
