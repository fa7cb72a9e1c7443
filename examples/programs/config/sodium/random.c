/* Random numbers for tests: those of a generator, the same each time. */
#include "sodium.h"

static unsigned long long state = 42;

static const char *name(void)
{
    return "generator";
}

static uint32_t next(void)
{
    state = state * 6364136223846793005u + 1442695040888963407u;
    return (uint32_t)(state >> 32);
}

static void fill(void *const buffer, const size_t size)
{
    for (size_t i = 0; i < size; i++)
        ((unsigned char *)buffer)[i] = (unsigned char)next();
}

struct randombytes_implementation randombytes_sysrandom_implementation = {name, next, 0, 0, fill, 0};
