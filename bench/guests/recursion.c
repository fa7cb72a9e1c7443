/*
 * Recursion deeper than the register windows, without end: Fibonacci's numbers, Ackermann's function, and the towers of Hanoi.
 * A call spills a window, and a return fills one, as often as a tree of calls leaves the eight windows.
 */
#include "rounds.h"

#define APART static __attribute__((noinline))

APART unsigned fibonacci(unsigned n)
{
    return n < 2 ? n : fibonacci(n - 1) + fibonacci(n - 2);
}

APART unsigned ackermann(unsigned m, unsigned n)
{
    if (m == 0)
        return n + 1;
    return ackermann(m - 1, n == 0 ? 1 : ackermann(m, n - 1));
}

static unsigned moves;

APART void move_tower(unsigned height, unsigned from, unsigned to, unsigned over)
{
    if (height == 0)
        return;
    move_tower(height - 1, from, over, to);
    moves = moves * 5 + from * 3 + to;
    move_tower(height - 1, over, to, from);
}

static unsigned work(void)
{
    move_tower(14, 0, 1, 2);
    return moves + fibonacci(20) + ackermann(2, 100);
}
