/* All that the compiler calls routines.c for: numbers of 64 bits and memory. Prints checksums (FNV-1a). */
#include <xm.h>
#include <stddef.h>
#include "lines.h"

void *memcpy(void *to, const void *from, size_t count);
void *memmove(void *to, const void *from, size_t count);
void *memset(void *to, int byte, size_t count);
int memcmp(const void *a, const void *b, size_t count);

typedef unsigned long long wide;
typedef long long signed_wide;

static wide word = 88172645463325252u;

static wide next_word(void)
{
    word ^= word << 13;
    word ^= word >> 7;
    word ^= word << 17;
    return word;
}

static wide hashed(wide hash, wide number)
{
    for (int shift = 56; shift >= 0; shift -= 8)
        hash = (hash ^ (number >> shift & 0xff)) * 0x100000001b3u;
    return hash;
}

static void put_wide(wide number)
{
    if (number >= 10)
        put_wide(number / 10);
    put_char((char)('0' + number % 10));
}

enum kind { PRODUCTS, QUOTIENTS, RESTS, SIGNED_QUOTIENTS, SIGNED_RESTS, SHIFTS, KINDS };

static const char *const names[KINDS] = {
    "products", "quotients", "rests", "signed quotients", "signed rests", "shifts",
};

static __attribute__((noinline)) wide outcome(enum kind kind, wide a, wide b, unsigned count)
{
    switch (kind) {
    case PRODUCTS: return a * b;
    case QUOTIENTS: return a / b;
    case RESTS: return a % b;
    case SIGNED_QUOTIENTS: return (wide)((signed_wide)a / (signed_wide)b);
    case SIGNED_RESTS: return (wide)((signed_wide)a % (signed_wide)b);
    default: return (a << count) + (a >> count) + (wide)((signed_wide)a >> count);
    }
}

static void report(const char *what, wide hash)
{
    put_text(what);
    put_char(' ');
    put_wide(hash);
    print_line();
}

static const wide first_hash = 0xcbf29ce484222325u;

/* The second operand is shifted by 0 to 62, so that quotients of all lengths come, and it is never 0 or -1. */
static void numbers(void)
{
    for (int kind = 0; kind < KINDS; kind++) {
        wide hash = first_hash;
        for (unsigned i = 0; i < 64; i++) {
            wide a = next_word(), b = (wide)((signed_wide)next_word() >> i % 63);
            if (b + 1 < 2)
                b = 3;
            hash = hashed(hash, outcome((enum kind)kind, a, b, i));
        }
        report(names[kind], hash);
    }
}

/* Pieces of all lengths, at all places of a word, moved up and down over themselves. */
static void memory(void)
{
    unsigned char bytes[64], copy[64];
    wide hash = first_hash;
    for (unsigned i = 0; i < 48; i++) {
        unsigned from = i % 7, to = i * 5 % 11;
        memset(bytes, (int)i + 240, sizeof bytes);
        for (unsigned j = 0; j < sizeof bytes; j += 3)
            bytes[j] = (unsigned char)next_word();
        memcpy(copy, bytes, sizeof bytes);
        memmove(bytes + to, bytes + from, i);
        int order = memcmp(copy, bytes, i + to);
        hash = hashed(hash, order < 0 ? 1 : order > 0 ? 2 : 3);
        for (unsigned j = 0; j < sizeof bytes; j++)
            hash = hashed(hash, bytes[j]);
    }
    report("memory", hash);
}

int main(void)
{
    numbers();
    memory();
    return 0;
}
