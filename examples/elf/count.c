/* Counts for ever in zeroed memory, by steps that stand in initialised memory: code, data, and room for zeros. */
static volatile unsigned counts[4];
static volatile unsigned steps[4] = {1, 2, 3, 5};

__attribute__((section(".text.start"))) void _start(void)
{
    for (unsigned i = 0;; i = (i + 1) % 4)
        counts[i] += steps[i];
}
