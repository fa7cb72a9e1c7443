/*
 * Calls 48 deep and back, without end: each call past the seventh spills a window, and each return fills one.
 * `result` keeps the compiler from leaving work out.
 */

volatile unsigned result;

static __attribute__((noinline)) unsigned down(unsigned depth, unsigned mix)
{
    if (depth == 0)
        return mix;
    unsigned below = down(depth - 1, mix * 5 + depth);
    return (below << 3 ^ below >> 5) + depth;
}

int main(void)
{
    for (unsigned seed = 1;; seed++)
        result = down(48, seed);
}
