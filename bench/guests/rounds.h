/*
 * The main of a guest that is measured: rounds of its `work` without end, or with ROUNDS defined that many. A round has about a
 * million instructions.
 */

/* Keeps the compiler from leaving work out. */
volatile unsigned result;

static unsigned seed = 2463534242;

static inline unsigned next_word(void)
{
    seed ^= seed << 13;
    seed ^= seed >> 17;
    seed ^= seed << 5;
    return seed;
}

/* A round: what it gives goes into the result. */
static unsigned work(void);

int main(void)
{
    unsigned sum = 0;
#ifdef ROUNDS
    for (unsigned round = 0; round < ROUNDS; round++) {
#else
    for (;;) {
#endif
        sum = sum * 31 + work();
        result = sum;
    }
    return 0;
}
