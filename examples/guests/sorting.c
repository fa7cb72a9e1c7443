/* Sorts words and records, and prints checksums (CRC-32) of them before and after. */
#include <xm.h>
#include "lines.h"
#include "../bare/quicksort.h"

#define WORDS 1000

static unsigned words[WORDS];

struct record {
    unsigned short key;
    unsigned char tag[6];
};

static struct record records[200];

/* One byte into a checksum, bit by bit. */
static unsigned crc_of_byte(unsigned crc, unsigned byte)
{
    crc ^= byte;
    for (int bit = 0; bit < 8; bit++)
        crc = crc & 1 ? crc >> 1 ^ 0xedb88320 : crc >> 1;
    return crc;
}

/* The checksum of the words as big endian bytes, the same on every machine. */
static unsigned crc_of_words(void)
{
    unsigned crc = 0xffffffff;
    for (unsigned i = 0; i < WORDS; i++)
        for (int shift = 24; shift >= 0; shift -= 8)
            crc = crc_of_byte(crc, words[i] >> shift & 0xff);
    return ~crc;
}

static unsigned crc_of_records(void)
{
    unsigned crc = 0xffffffff;
    for (unsigned i = 0; i < sizeof records / sizeof records[0]; i++) {
        crc = crc_of_byte(crc, records[i].key >> 8);
        crc = crc_of_byte(crc, records[i].key & 0xff);
        for (unsigned j = 0; j < sizeof records[i].tag; j++)
            crc = crc_of_byte(crc, records[i].tag[j]);
    }
    return ~crc;
}

static unsigned next_word(unsigned word)
{
    word ^= word << 13;
    word ^= word >> 17;
    return word ^ word << 5;
}

/* Sorts the records by their keys; those with equal keys stay in their order. */
static void insertion_sort(void)
{
    for (unsigned i = 1; i < sizeof records / sizeof records[0]; i++) {
        struct record held = records[i];
        unsigned place = i;
        for (; place > 0 && held.key < records[place - 1].key; place--)
            records[place] = records[place - 1];
        records[place] = held;
    }
}

static void report(const char *what, unsigned before, unsigned after)
{
    put_text(what);
    put_text(" before ");
    put_hex(before);
    put_text(" after ");
    put_hex(after);
    print_line();
}

int main(void)
{
    unsigned word = 2463534242;
    for (unsigned i = 0; i < WORDS; i++)
        words[i] = word = next_word(word);
    unsigned before = crc_of_words();
    quicksort(words, WORDS);
    report("words", before, crc_of_words());

    for (unsigned i = 0; i < sizeof records / sizeof records[0]; i++) {
        word = next_word(word);
        records[i].key = (unsigned short)(word % 50);
        for (unsigned j = 0; j < sizeof records[i].tag; j++)
            records[i].tag[j] = (unsigned char)(word >> (8 + j));
    }
    before = crc_of_records();
    insertion_sort();
    report("records", before, crc_of_records());
    return 0;
}
