/*
 * A workload of whole numbers without end, for measuring how fast guests run: the longer the run, the more rounds.
 * With ROUNDS defined it ends after that many.
 *
 * A round has about 1.7 million instructions: sorting, hashing, a sieve, products of matrices, text, division, and
 * recursion deeper than the register windows, so that they spill and fill. `result` keeps the compiler from leaving work out.
 */

#define COUNT 2048
#define SIDE 24
#define SIEVE 8192
#define SLOTS 1024

volatile unsigned result;

static unsigned seed = 2463534242;

static unsigned next_word(void)
{
    seed ^= seed << 13;
    seed ^= seed >> 17;
    seed ^= seed << 5;
    return seed;
}

static unsigned words[COUNT];

#include "../examples/bare/quicksort.h"

static unsigned sorting(void)
{
    for (unsigned i = 0; i < COUNT; i++)
        words[i] = next_word();
    quicksort(words, COUNT);
    return words[COUNT / 2];
}

/* A table of words and how often they came, with linear search after the first place. */
struct slot {
    unsigned key, count;
};

static struct slot slots[SLOTS];

static __attribute__((noinline)) struct slot *slot_of(unsigned key)
{
    unsigned place = key * 0x9e3779b1 >> 22;
    while (slots[place].count != 0 && slots[place].key != key)
        place = (place + 1) % SLOTS;
    return &slots[place];
}

static unsigned hashing(void)
{
    unsigned most = 0;
    for (unsigned i = 0; i < SLOTS; i++)
        slots[i].count = 0;
    for (unsigned i = 0; i < 8000; i++) {
        unsigned key = next_word() % 700;
        struct slot *slot = slot_of(key);
        slot->key = key;
        slot->count++;
        if (slot->count > most)
            most = slot->count;
    }
    return most;
}

static unsigned char composite[SIEVE];

static unsigned sieving(void)
{
    unsigned primes = 0;
    for (unsigned i = 0; i < SIEVE; i++)
        composite[i] = 0;
    for (unsigned i = 2; i < SIEVE; i++) {
        if (composite[i])
            continue;
        primes++;
        for (unsigned k = i + i; k < SIEVE; k += i)
            composite[k] = 1;
    }
    return primes;
}

static int left[SIDE][SIDE], right[SIDE][SIDE], product[SIDE][SIDE];

static unsigned multiplying(void)
{
    for (int i = 0; i < SIDE; i++)
        for (int k = 0; k < SIDE; k++) {
            left[i][k] = (int)(next_word() >> 16);
            right[i][k] = (int)(next_word() >> 16);
        }
    for (int i = 0; i < SIDE; i++)
        for (int k = 0; k < SIDE; k++) {
            unsigned sum = 0;
            for (int j = 0; j < SIDE; j++)
                sum += (unsigned)left[i][j] * (unsigned)right[j][k];
            product[i][k] = (int)sum;
        }
    return (unsigned)product[SIDE - 1][SIDE / 2];
}

static __attribute__((noinline)) unsigned fibonacci(unsigned n)
{
    return n < 2 ? n : fibonacci(n - 1) + fibonacci(n - 2);
}

/* A tree of numbers, deeper than the windows, kept in an array and gone through by recursion. */
struct node {
    unsigned key;
    short below, above;
};

static struct node nodes[512];
static int node_count;

static __attribute__((noinline)) int add_node(int at, unsigned key)
{
    if (at < 0) {
        struct node *fresh = &nodes[node_count];
        fresh->key = key;
        fresh->below = fresh->above = -1;
        return node_count++;
    }
    if (key < nodes[at].key)
        nodes[at].below = (short)add_node(nodes[at].below, key);
    else
        nodes[at].above = (short)add_node(nodes[at].above, key);
    return at;
}

static __attribute__((noinline)) unsigned depth_of(int at)
{
    if (at < 0)
        return 0;
    unsigned below = depth_of(nodes[at].below), above = depth_of(nodes[at].above);
    return 1 + (below > above ? below : above);
}

static unsigned growing(void)
{
    int root = -1;
    node_count = 0;
    for (int i = 0; i < 512; i++)
        root = add_node(root, next_word());
    return depth_of(root);
}

static char text[4096];

/* Decimal numbers written as text, and read again. */
static unsigned writing(void)
{
    unsigned size = 0, sum = 0;
    while (size < sizeof text - 12) {
        unsigned number = next_word() >> 8;
        char digits[12];
        int count = 0;
        do {
            digits[count++] = (char)('0' + number % 10);
            number /= 10;
        } while (number != 0);
        while (count > 0)
            text[size++] = digits[--count];
        text[size++] = ' ';
    }
    for (unsigned i = 0, number = 0; i < size; i++) {
        if (text[i] == ' ') {
            sum += number;
            number = 0;
        } else {
            number = number * 10 + (unsigned)(text[i] - '0');
        }
    }
    return sum;
}

static unsigned dividing(void)
{
    unsigned sum = 0;
    for (unsigned i = 0; i < 1000; i++) {
        unsigned a = next_word(), b = next_word() >> 12 | 1;
        while (b != 0) {
            unsigned rest = a % b;
            a = b;
            b = rest;
        }
        sum += a;
        sum ^= (unsigned)((int)next_word() / 1000);
    }
    return sum;
}

static unsigned crc(void)
{
    unsigned sum = 0xffffffff;
    for (unsigned i = 0; i < sizeof text; i++) {
        sum ^= (unsigned char)text[i];
        for (int bit = 0; bit < 8; bit++)
            sum = sum & 1 ? sum >> 1 ^ 0xedb88320 : sum >> 1;
    }
    return ~sum;
}

int main(void)
{
    unsigned sum = 0;
#ifdef ROUNDS
    for (unsigned round = 0; round < ROUNDS; round++) {
#else
    for (;;) {
#endif
        sum = sum * 31 + sorting();
        sum = sum * 31 + hashing();
        sum = sum * 31 + sieving();
        sum = sum * 31 + multiplying();
        sum = sum * 31 + fibonacci(18);
        sum = sum * 31 + growing();
        sum = sum * 31 + writing();
        sum = sum * 31 + crc();
        sum = sum * 31 + dividing();
        result = sum;
    }
    return 0;
}
