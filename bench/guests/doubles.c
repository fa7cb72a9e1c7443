/*
 * Sums and products of doubles by whole numbers, without end, as a compiler makes them for a processor without a unit for them:
 * a mass on a spring, whose place and speed go on by small steps. Most of it is arithmetic and shifts of 64 bits.
 *
 * The results are those of IEEE 754, rounded to the nearest, for numbers that are neither too great nor too small.
 */
#include "rounds.h"

#define STEPS 2000

#define APART static __attribute__((noinline))

typedef unsigned long long wide;

#define SIGN (1ULL << 63)
/* What stands before the point of a number's bits, and where it is while there are ten more after them. */
#define ONE (1ULL << 52)
#define SPARE 10
#define LEADING (ONE << SPARE)

static int exponent_of(wide number)
{
    return (int)(number >> 52) & 0x7ff;
}

static wide bits_of(wide number)
{
    return ONE | (number & (ONE - 1));
}

/* A number of these bits, the ten last of which are rounded away; a carry goes into the exponent. */
static wide rounded(wide sign, int exponent, wide bits)
{
    wide rest = bits & ((1 << SPARE) - 1), half = 1 << (SPARE - 1);
    bits >>= SPARE;
    bits += rest > half || (rest == half && (bits & 1) != 0);
    return sign + ((wide)(unsigned)exponent << 52) + (bits - ONE);
}

/* The high half of a product of 128 bits; its last bit is 1 where the low half is not 0. */
static wide high_product(wide left, wide right)
{
    unsigned left_high = (unsigned)(left >> 32), left_low = (unsigned)left;
    unsigned right_high = (unsigned)(right >> 32), right_low = (unsigned)right;
    wide low = (wide)left_low * right_low;
    wide middle = (wide)left_high * right_low + (low >> 32);
    wide other = (wide)left_low * right_high + (unsigned)middle;
    wide high = (wide)left_high * right_high + (middle >> 32) + (other >> 32);
    return high | ((unsigned)other != 0 || (unsigned)low != 0);
}

APART wide product(wide left, wide right)
{
    wide sign = (left ^ right) & SIGN;
    int exponent = exponent_of(left) + exponent_of(right) - 1022;
    if (exponent_of(left) == 0 || exponent_of(right) == 0)
        return sign;
    wide bits = high_product(bits_of(left) << (SPARE + 1), bits_of(right) << SPARE);
    if ((bits & LEADING) == 0) {
        bits <<= 1;
        exponent--;
    }
    return rounded(sign, exponent, bits);
}

/* The bits divided by a power of two; the last is 1 where one that is not 0 is lost. */
static wide shifted(wide bits, int places)
{
    if (places > 62)
        return 1;
    return places == 0 ? bits : bits >> places | (bits << (64 - places) != 0);
}

APART wide sum(wide left, wide right)
{
    if (left << 1 < right << 1) {
        wide greater = right;
        right = left;
        left = greater;
    }
    int exponent = exponent_of(left);
    if (exponent_of(right) == 0)
        return left;
    wide bits = bits_of(left) << SPARE, added = shifted(bits_of(right) << SPARE, exponent - exponent_of(right));
    if (((left ^ right) & SIGN) == 0) {
        bits += added;
        if ((bits & LEADING << 1) != 0) {
            bits = shifted(bits, 1);
            exponent++;
        }
        return rounded(left & SIGN, exponent, bits);
    }
    bits -= added;
    if (bits == 0)
        return 0;
    for (; (bits & LEADING) == 0; exponent--)
        bits <<= 1;
    return rounded(left & SIGN, exponent, bits);
}

/* 1.0, 0.0, and a step of 0.1 forward and back. */
static wide place = 0x3ff0000000000000, speed = 0;
static const wide step = 0x3fb999999999999a, step_back = 0xbfb999999999999a;

static unsigned work(void)
{
    for (int i = 0; i < STEPS; i++) {
        speed = sum(speed, product(place, step_back));
        place = sum(place, product(speed, step));
    }
    return (unsigned)(place >> 32) ^ (unsigned)place;
}
