/*
 * A guest that computes: sorting, hashing, division, recursion deeper than the register windows, calls by
 * pointer, structures by value. It prints a line for each part and a checksum of all lines as the last.
 *
 * Compiled natively with another console it prints the same, and checksum.txt, in the data of guest_suite, is what that printed.
 */
#include "console.h"

typedef unsigned char byte;

static unsigned crc_table[256];
static unsigned lines_crc = 0xffffffff;

static unsigned crc_of(unsigned crc, const byte *bytes, unsigned count)
{
    for (unsigned i = 0; i < count; i++)
        crc = crc >> 8 ^ crc_table[(crc ^ bytes[i]) & 0xff];
    return crc;
}

static void make_crc_table(void)
{
    for (unsigned i = 0; i < 256; i++) {
        unsigned entry = i;
        for (int bit = 0; bit < 8; bit++)
            entry = entry & 1 ? entry >> 1 ^ 0xedb88320 : entry >> 1;
        crc_table[i] = entry;
    }
}

#include "lines.h"

/* Prints the line, and counts it into the checksum. */
static void end_line(void)
{
    put_char('\n');
    lines_crc = crc_of(lines_crc, (const byte *)line.text, line.size);
    XM_write_console(line.text, line.size);
    line.size = 0;
}

/* Words from a generator of Marsaglia's. */
static unsigned seed = 2463534242;

static unsigned next_word(void)
{
    seed ^= seed << 13;
    seed ^= seed >> 17;
    seed ^= seed << 5;
    return seed;
}

#define WORDS 4096

static unsigned generated[WORDS];
static unsigned sorted[WORDS];
static unsigned heap[WORDS];

/* The checksum of words as big endian bytes, the same on every machine. */
static unsigned crc_of_words(const unsigned *words, unsigned count)
{
    unsigned crc = 0xffffffff;
    for (unsigned i = 0; i < count; i++) {
        byte bytes[4] = {
            (byte)(words[i] >> 24), (byte)(words[i] >> 16), (byte)(words[i] >> 8), (byte)words[i],
        };
        crc = crc_of(crc, bytes, 4);
    }
    return ~crc;
}

#include "quicksort.h"

static void sift_down(unsigned *words, unsigned root, unsigned count)
{
    for (;;) {
        unsigned child = 2 * root + 1;
        if (child >= count)
            return;
        if (child + 1 < count && words[child] < words[child + 1])
            child++;
        if (words[root] >= words[child])
            return;
        unsigned held = words[root];
        words[root] = words[child];
        words[child] = held;
        root = child;
    }
}

static void heapsort(unsigned *words, unsigned count)
{
    for (unsigned i = count / 2; i-- > 0;)
        sift_down(words, i, count);
    for (unsigned end = count; end-- > 1;) {
        unsigned held = words[0];
        words[0] = words[end];
        words[end] = held;
        sift_down(words, 0, end);
    }
}

static void sorting(void)
{
    for (unsigned i = 0; i < WORDS; i++)
        sorted[i] = heap[i] = generated[i] = next_word();
    put_text("generated ");
    put_hex(crc_of_words(generated, WORDS));
    end_line();
    quicksort(sorted, WORDS);
    heapsort(heap, WORDS);
    unsigned rising = 0, same = 0;
    for (unsigned i = 0; i < WORDS; i++) {
        rising += i == 0 || sorted[i - 1] <= sorted[i];
        same += sorted[i] == heap[i];
    }
    put_text("sorted ");
    put_hex(crc_of_words(sorted, WORDS));
    put_text(" rising ");
    put_unsigned(rising);
    put_text(" same ");
    put_unsigned(same);
    end_line();
}

static __attribute__((noinline)) unsigned fibonacci(unsigned n)
{
    return n < 2 ? n : fibonacci(n - 1) + fibonacci(n - 2);
}

/* Recursion as deep as the sum is long: each frame keeps a value that it needs after the call. */
static __attribute__((noinline)) unsigned deep(unsigned depth, unsigned held)
{
    if (depth == 0)
        return held;
    unsigned below = deep(depth - 1, held * 3 + depth);
    return below ^ held << (depth & 7);
}

static unsigned greatest_divisor(unsigned a, unsigned b)
{
    while (b != 0) {
        unsigned rest = a % b;
        a = b;
        b = rest;
    }
    return a;
}

static void recursion(void)
{
    put_text("fibonacci ");
    put_unsigned(fibonacci(22));
    put_text(" deep ");
    put_hex(deep(500, 1));
    end_line();
}

/* Quotients and rests of both signs, and products of 64 bits. */
static void dividing(void)
{
    unsigned divisors = 0, quotients = 0, signed_parts = 0;
    unsigned long long products = 0;
    for (unsigned i = 0; i < 1000; i++) {
        unsigned a = generated[i], b = generated[i + 1000] >> (i & 31) | 1;
        divisors += greatest_divisor(a, b);
        quotients ^= a / b;
        signed_parts += (unsigned)((int)a % (int)(b >> 1 | 1));
        signed_parts ^= (unsigned)((int)a / ((int)b >> 3 | 2));
        products += (unsigned long long)a * b;
        products -= (unsigned long long)((long long)(int)a * (int)b) >> 32;
    }
    put_text("divisors ");
    put_unsigned(divisors);
    put_text(" quotients ");
    put_hex(quotients);
    put_text(" signed ");
    put_signed((int)signed_parts);
    put_text(" products ");
    put_hex((unsigned)(products >> 32));
    put_hex((unsigned)products);
    end_line();
}

/* Bytes and half words with and without sign. */
static signed char small[256];
static unsigned char large[256];
static short signed_halves[256];
static unsigned short halves[256];

static void narrow(void)
{
    int sum = 0;
    for (unsigned i = 0; i < 256; i++) {
        unsigned word = generated[i];
        small[i] = (signed char)word;
        large[i] = (unsigned char)(word >> 8);
        signed_halves[i] = (short)word;
        halves[i] = (unsigned short)(word >> 16);
    }
    for (unsigned i = 0; i < 256; i++)
        sum += small[i] * large[255 - i] - signed_halves[i] / 3 + halves[i] % 7;
    put_text("narrow ");
    put_signed(sum);
    end_line();
}

/* A structure that is given back by value, and calls by pointer out of a table. */
struct pair {
    unsigned first, second;
};

static __attribute__((noinline)) struct pair exchanged(struct pair p, unsigned by)
{
    struct pair q = {p.second + by, p.first ^ by};
    return q;
}

static __attribute__((noinline)) unsigned rotated(unsigned a, unsigned b)
{
    return a << (b & 31) | a >> (-b & 31);
}

static __attribute__((noinline)) unsigned mixed(unsigned a, unsigned b)
{
    return a * 0x9e3779b1 ^ b;
}

static __attribute__((noinline)) unsigned halved(unsigned a, unsigned b)
{
    return (unsigned)((int)a >> (b & 3)) - b;
}

static unsigned (*const steps[])(unsigned, unsigned) = {rotated, mixed, halved};

/* A switch that becomes a table of addresses. */
static __attribute__((noinline)) unsigned chosen(unsigned which, unsigned word)
{
    switch (which) {
    case 0: return word + 1;
    case 1: return word ^ 0x55555555;
    case 2: return word - 0x1234;
    case 3: return ~word;
    case 4: return word * 5;
    case 5: return word / 3;
    case 6: return word >> 7;
    case 7: return word << 3 | 1;
    default: return 0;
    }
}

static void calling(void)
{
    struct pair p = {1, 2};
    unsigned word = 0x12345678;
    for (unsigned i = 0; i < 2000; i++) {
        p = exchanged(p, generated[i & 1023]);
        word = steps[i % 3](word, p.first);
        word = chosen(word >> 3 & 15, word) ^ p.second;
    }
    put_text("called ");
    put_hex(word);
    put_char(' ');
    put_hex(p.first);
    put_hex(p.second);
    end_line();
}

int main(void)
{
    make_crc_table();
    sorting();
    recursion();
    dividing();
    narrow();
    calling();
    unsigned checksum = ~lines_crc;
    put_text("checksum ");
    put_hex(checksum);
    end_line();
    return 0;
}
