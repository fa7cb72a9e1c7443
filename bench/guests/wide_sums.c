/*
 * Sums of 64 bits, without end, as filters in Q31 and clocks of microseconds have them: a product of two words has 64 bits, and
 * a sum of such takes two additions, of which the second takes the carry of the first.
 */
#include "rounds.h"

#define TAPS 32
#define SAMPLES 2300
#define PERIOD 250000LL

#define APART static __attribute__((noinline))

static int taps[TAPS], past[TAPS];
static unsigned at;
static long long now, next_turn = PERIOD, late;

APART int fir(int sample)
{
    long long sum = 0;
    past[at % TAPS] = sample;
    for (unsigned i = 0; i < TAPS; i++)
        sum += (long long)taps[i] * past[(at - i) % TAPS];
    at++;
    return (int)(sum >> 31);
}

/* The clock goes on, and the delay of each turn that has come is summed; gives the time to the next turn. */
APART int wait(int duration)
{
    now += duration;
    while (now >= next_turn) {
        late += now - next_turn;
        next_turn += PERIOD;
    }
    return (int)(next_turn - now);
}

static unsigned work(void)
{
    unsigned sum = 0;
    for (int i = 0; i < TAPS; i++)
        taps[i] = (i < TAPS / 2 ? i : TAPS - 1 - i) << 22;
    for (int sample = 0; sample < SAMPLES; sample++) {
        int value = fir((int)next_word());
        sum += (unsigned)value + (unsigned)wait(value & 0xffff);
    }
    return sum ^ (unsigned)late;
}
