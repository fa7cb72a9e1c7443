/*
 * What the compiler calls where V8 has no instruction: 64-bit quotients and rests, 64-bit shifts
 * (with -Os), and the copying, filling and comparing of memory. Names and results are those of libgcc and of C.
 */
#pragma GCC optimize("no-tree-loop-distribute-patterns") /* no loop here becomes a call of what it is the body of */

typedef unsigned int word;
typedef unsigned long long wide;
typedef long long signed_wide;

/* Big endian: the high word is the first in memory. */
union halves {
    wide whole;
    struct {
        word high, low;
    };
};

static wide joined(word high, word low)
{
    return (union halves){.high = high, .low = low}.whole;
}

static word high_of(wide number)
{
    return (union halves){.whole = number}.high;
}

static word low_of(wide number)
{
    return (union halves){.whole = number}.low;
}

/* Shifts by 0 to 63. */
wide __ashldi3(wide number, int count)
{
    word high = high_of(number), low = low_of(number);
    if (count == 0)
        return number;
    if (count >= 32)
        return joined(low << (count - 32), 0);
    return joined(high << count | low >> (32 - count), low << count);
}

wide __lshrdi3(wide number, int count)
{
    word high = high_of(number), low = low_of(number);
    if (count == 0)
        return number;
    if (count >= 32)
        return joined(0, high >> (count - 32));
    return joined(high >> count, low >> count | high << (32 - count));
}

wide __ashrdi3(wide number, int count)
{
    word high = high_of(number), low = low_of(number);
    word sign = (word)((int)high >> 31);
    if (count == 0)
        return number;
    if (count >= 32)
        return joined(sign, (word)((int)high >> (count - 32)));
    return joined((word)((int)high >> count), low >> count | high << (32 - count));
}

/* Long division, bit by bit: the quotient comes into the dividend's place as that goes out. */
static wide divided(wide dividend, wide divisor, wide *rest_to)
{
    wide rest = 0;
    for (int bit = 0; bit < 64; bit++) {
        word carry = high_of(rest) >> 31;
        rest = rest << 1 | high_of(dividend) >> 31;
        dividend <<= 1;
        if (carry || rest >= divisor) {
            rest -= divisor;
            dividend |= 1;
        }
    }
    *rest_to = rest;
    return dividend;
}

/* As the instruction does, a division by 0 traps. */
static void trap_if_zero(wide divisor)
{
    if (divisor == 0)
        __asm__ volatile("udiv %%g0, %%g0, %%g0" : : : "memory");
}

wide __udivdi3(wide dividend, wide divisor)
{
    wide rest;
    trap_if_zero(divisor);
    return divided(dividend, divisor, &rest);
}

wide __umoddi3(wide dividend, wide divisor)
{
    wide rest;
    trap_if_zero(divisor);
    divided(dividend, divisor, &rest);
    return rest;
}

static wide magnitude(signed_wide number)
{
    return number < 0 ? 0 - (wide)number : (wide)number;
}

/* Toward zero. */
signed_wide __divdi3(signed_wide dividend, signed_wide divisor)
{
    wide quotient = __udivdi3(magnitude(dividend), magnitude(divisor));
    return (signed_wide)((dividend < 0) == (divisor < 0) ? quotient : 0 - quotient);
}

/* With the dividend's sign. */
signed_wide __moddi3(signed_wide dividend, signed_wide divisor)
{
    wide rest = __umoddi3(magnitude(dividend), magnitude(divisor));
    return (signed_wide)(dividend < 0 ? 0 - rest : rest);
}

typedef __SIZE_TYPE__ size;

void *memcpy(void *to, const void *from, size count)
{
    char *target = to;
    const char *source = from;
    while (count-- > 0)
        *target++ = *source++;
    return to;
}

void *memmove(void *to, const void *from, size count)
{
    char *target = to;
    const char *source = from;
    if (target <= source)
        return memcpy(to, from, count);
    while (count-- > 0)
        target[count] = source[count];
    return to;
}

void *memset(void *to, int byte, size count)
{
    char *target = to;
    while (count-- > 0)
        *target++ = (char)byte;
    return to;
}

int memcmp(const void *a, const void *b, size count)
{
    const unsigned char *first = a, *second = b;
    for (size i = 0; i < count; i++)
        if (first[i] != second[i])
            return first[i] - second[i];
    return 0;
}
