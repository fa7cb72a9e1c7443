/* The first of three partitions: counts primes, a line for each step. */
#include <xm.h>
#include "lines.h"

static int is_prime(unsigned number)
{
    for (unsigned divisor = 2; divisor * divisor <= number; divisor++)
        if (number % divisor == 0)
            return 0;
    return number > 1;
}

int main(void)
{
    unsigned count = 0;
    for (unsigned number = 0; number < 200; number++) {
        count += (unsigned)is_prime(number);
        if (number % 40 == 39) {
            put_text("primes below ");
            put_unsigned(number + 1);
            put_char(' ');
            put_unsigned(count);
            print_line();
        }
    }
    return 0;
}
