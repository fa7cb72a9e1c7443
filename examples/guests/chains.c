/* The second of three partitions: the longest chain of halving and tripling so far, a line for each step. */
#include <xm.h>
#include "lines.h"

static unsigned steps_to_one(unsigned number)
{
    unsigned steps = 0;
    for (; number != 1; steps++)
        number = number & 1 ? 3 * number + 1 : number >> 1;
    return steps;
}

int main(void)
{
    unsigned longest = 0, from = 1;
    for (unsigned number = 1; number <= 50; number++) {
        unsigned steps = steps_to_one(number);
        if (steps > longest) {
            longest = steps;
            from = number;
        }
        if (number % 10 == 0) {
            put_text("chain from ");
            put_unsigned(from);
            put_text(" has ");
            put_unsigned(longest);
            print_line();
        }
    }
    return 0;
}
