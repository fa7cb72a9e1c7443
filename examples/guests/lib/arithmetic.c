/*
 * Each operation on float and double, over hard and random operands, folded into a sum of its results: two machines whose sums
 * are equal have the same arithmetic. arithmetic_test compares partitions with the machine that builds them.
 *
 * The argument is how many pairs of random operands there are, 600 without one. All results that are no numbers are one.
 */
#include <math.h>
#include <stdint.h>
#include <stdio.h>
#include <stdlib.h>
#include <string.h>

enum operation {
    ADD, SUBTRACT, MULTIPLY, DIVIDE, NEGATE, SQUARE_ROOT, SHORT_ADD, SHORT_SUBTRACT, SHORT_MULTIPLY, SHORT_DIVIDE, SHORT_NEGATE,
    COMPARE, SHORT_COMPARE, TO_SHORT, FROM_SHORT, TO_WORD, TO_UNSIGNED, TO_WIDE, TO_UNSIGNED_WIDE, SHORT_TO_WORD, SHORT_TO_UNSIGNED,
    SHORT_TO_WIDE, SHORT_TO_UNSIGNED_WIDE, FROM_WORD, FROM_UNSIGNED, FROM_WIDE, FROM_UNSIGNED_WIDE, SHORT_FROM_WORD,
    SHORT_FROM_UNSIGNED, SHORT_FROM_WIDE, SHORT_FROM_UNSIGNED_WIDE, OPERATIONS
};

static const char *const names[OPERATIONS] = {
    "double +", "double -", "double *", "double /", "double negated", "double square root", "float +", "float -", "float *",
    "float /", "float negated", "double compared", "float compared", "double to float", "float to double", "double to int",
    "double to unsigned", "double to long long", "double to unsigned long long", "float to int", "float to unsigned",
    "float to long long", "float to unsigned long long", "int to double", "unsigned to double", "long long to double",
    "unsigned long long to double", "int to float", "unsigned to float", "long long to float", "unsigned long long to float",
};

/* Zeros, ones, the least and the greatest of each kind and their neighbours, in double and at the edges of float and integers. */
static const uint64_t hard[] = {
    0x0000000000000000, 0x8000000000000000, 0x0000000000000001, 0x8000000000000001, 0x000fffffffffffff, 0x0010000000000000,
    0x3ff0000000000000, 0xbff0000000000000, 0x3ff0000000000001, 0x3fefffffffffffff, 0x4340000000000000, 0x433fffffffffffff,
    0x7fefffffffffffff, 0xffefffffffffffff, 0x7ff0000000000000, 0xfff0000000000000, 0x7ff8000000000000, 0x41dfffffffc00000,
    0x41e0000000000000, 0x41efffffffe00000, 0x41f0000000000000, 0x43e0000000000000, 0x43dfffffffffffff, 0x36a0000000000000,
    0x3690000000000000, 0x3690000000000001, 0x380fffffffffffff, 0x380fffffc0000000, 0x3810000000000000, 0x47efffffefffffff,
    0x47efffffe0000000, 0x47effffff0000000, 0x3fe0000000000000, 0x4008000000000000, 0x3fd5555555555555,
};

#define HARD (sizeof hard / sizeof *hard)

static uint64_t sums[OPERATIONS];
static uint64_t word = 88172645463325252u;

static uint64_t next_word(void)
{
    word ^= word << 13;
    word ^= word >> 7;
    word ^= word << 17;
    return word;
}

static double number(uint64_t bits)
{
    double number;
    memcpy(&number, &bits, sizeof number);
    return number;
}

static float short_number(uint32_t bits)
{
    float number;
    memcpy(&number, &bits, sizeof number);
    return number;
}

static void enter(enum operation operation, uint64_t result)
{
    sums[operation] = (sums[operation] ^ result) * 0x100000001b3u + (sums[operation] >> 29);
}

static void enter_double(enum operation operation, double result)
{
    uint64_t bits;
    memcpy(&bits, &result, sizeof bits);
    enter(operation, result != result ? 0x7ff8000000000000u : bits);
}

static void enter_float(enum operation operation, float result)
{
    uint32_t bits;
    memcpy(&bits, &result, sizeof bits);
    enter(operation, result != result ? 0x7fc00000u : bits);
}

#define ORDER(a, b) \
    (((a) < (b)) | ((a) <= (b)) << 1 | ((a) == (b)) << 2 | ((a) != (b)) << 3 | ((a) >= (b)) << 4 | ((a) > (b)) << 5)

static void doubles(double a, double b)
{
    enter_double(ADD, a + b);
    enter_double(SUBTRACT, a - b);
    enter_double(MULTIPLY, a * b);
    enter_double(DIVIDE, a / b);
    enter_double(NEGATE, -a);
    enter(COMPARE, ORDER(a, b));
    enter_float(TO_SHORT, (float)a);
    if (a > -2147483649.0 && a < 2147483648.0)
        enter(TO_WORD, (uint64_t)(int32_t)a);
    if (a > -1.0 && a < 4294967296.0)
        enter(TO_UNSIGNED, (uint32_t)a);
    if (a >= -9223372036854775808.0 && a < 9223372036854775808.0)
        enter(TO_WIDE, (uint64_t)(int64_t)a);
    if (a > -1.0 && a < 18446744073709551616.0)
        enter(TO_UNSIGNED_WIDE, (uint64_t)a);
}

static void floats(float a, float b)
{
    enter_float(SHORT_ADD, a + b);
    enter_float(SHORT_SUBTRACT, a - b);
    enter_float(SHORT_MULTIPLY, a * b);
    enter_float(SHORT_DIVIDE, a / b);
    enter_float(SHORT_NEGATE, -a);
    enter(SHORT_COMPARE, ORDER(a, b));
    enter_double(FROM_SHORT, (double)a);
    if (a >= -2147483648.0f && a < 2147483648.0f)
        enter(SHORT_TO_WORD, (uint64_t)(int32_t)a);
    if (a > -1.0f && a < 4294967296.0f)
        enter(SHORT_TO_UNSIGNED, (uint32_t)a);
    if (a >= -9223372036854775808.0f && a < 9223372036854775808.0f)
        enter(SHORT_TO_WIDE, (uint64_t)(int64_t)a);
    if (a > -1.0f && a < 18446744073709551616.0f)
        enter(SHORT_TO_UNSIGNED_WIDE, (uint64_t)a);
}

static void integers(uint64_t a)
{
    enter_double(FROM_WORD, (double)(int32_t)a);
    enter_double(FROM_UNSIGNED, (double)(uint32_t)a);
    enter_double(FROM_WIDE, (double)(int64_t)a);
    enter_double(FROM_UNSIGNED_WIDE, (double)a);
    enter_float(SHORT_FROM_WORD, (float)(int32_t)a);
    enter_float(SHORT_FROM_UNSIGNED, (float)(uint32_t)a);
    enter_float(SHORT_FROM_WIDE, (float)(int64_t)a);
    enter_float(SHORT_FROM_UNSIGNED_WIDE, (float)a);
}

static void pair(uint64_t a, uint64_t b)
{
    volatile double first = number(a), second = number(b);
    doubles(first, second);
    floats((float)first, (float)second);
    integers(a);
}

/* Every second pair has exponents that are near one another, so that sums cancel and products stay in range. */
static void random_pair(unsigned turn)
{
    uint64_t a = next_word(), b = next_word();
    volatile float first = short_number((uint32_t)(a >> 32)), second = short_number((uint32_t)(b >> 32));
    if (turn % 2 == 1)
        b = (b & 0x800fffffffffffffu) | (((a >> 52 & 0x7ff) + (b >> 52) % 60 - 30) & 0x7ff) << 52;
    volatile double one = number(a), other = number(b);
    doubles(one, other);
    floats(first, turn % 2 == 1 ? short_number((uint32_t)(a >> 32) ^ (uint32_t)(b >> 44)) : second);
    integers(a >> turn % 64);
    if (turn % 16 == 0)
        enter_double(SQUARE_ROOT, sqrt(fabs(one)));
}

static void print_sums(const char *what)
{
    for (int operation = 0; operation < OPERATIONS; operation++)
        printf("%s, %s: %016llx\n", what, names[operation], (unsigned long long)sums[operation]);
}

int main(int count, char **arguments)
{
    unsigned pairs = count > 1 ? (unsigned)strtoul(arguments[1], NULL, 10) : 600;
    for (size_t a = 0; a < HARD; a++)
        for (size_t b = 0; b < HARD; b++)
            pair(hard[a], hard[b]);
    print_sums("hard");
    for (unsigned turn = 0; turn < pairs; turn++)
        random_pair(turn);
    printf("%u pairs\n", pairs);
    print_sums("random");
    return 0;
}
