/*
 * Copies, sets and compares of memory, without end, as a C library does them: words by eight at a time, double words by four,
 * and bytes one by one. Loads and stores are most of what it executes.
 */
#include "rounds.h"

#define WORDS 2048
#define BYTES 1024
#define TURNS 36

#define APART static __attribute__((noinline))

/* Aligned as double words are. */
static unsigned long long one[WORDS / 2], other[WORDS / 2];
static unsigned char text[BYTES], copy[BYTES];

/* A number of words that is a multiple of eight. */
APART void copy_words(unsigned *to, const unsigned *from, unsigned count)
{
    for (; count != 0; count -= 8) {
        unsigned a = from[0], b = from[1], c = from[2], d = from[3], e = from[4], f = from[5], g = from[6], h = from[7];
        to[0] = a;
        to[1] = b;
        to[2] = c;
        to[3] = d;
        to[4] = e;
        to[5] = f;
        to[6] = g;
        to[7] = h;
        to += 8;
        from += 8;
    }
}

/* A number of double words that is a multiple of four. */
APART void set_double_words(unsigned long long *to, unsigned long long value, unsigned count)
{
    for (; count != 0; count -= 4) {
        to[0] = value;
        to[1] = value;
        to[2] = value;
        to[3] = value;
        to += 4;
    }
}

APART void copy_bytes(unsigned char *to, const unsigned char *from, unsigned count)
{
    while (count-- != 0)
        *to++ = *from++;
}

/* How many bytes are equal before the first that differs. */
APART unsigned equal_bytes(const unsigned char *left, const unsigned char *right, unsigned count)
{
    unsigned equal = 0;
    while (equal != count && left[equal] == right[equal])
        equal++;
    return equal;
}

static unsigned work(void)
{
    unsigned *words = (unsigned *)one, *others = (unsigned *)other, equal = 0;
    for (unsigned turn = 0; turn < TURNS; turn++) {
        text[turn] = (unsigned char)next_word();
        set_double_words(other, text[turn], WORDS / 2);
        copy_words(words, others, WORDS);
        words[turn] = next_word();
        copy_words(others, words, WORDS);
        copy_words(words, others, WORDS);
        copy_bytes(copy, text, BYTES);
        equal += equal_bytes(copy, text, BYTES);
    }
    return equal + words[TURNS / 2];
}
