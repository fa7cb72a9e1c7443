/*
 * Filters and control by numbers with a fixed point, without end: a filter of 32 taps (FIR) and a controller (PID) in Q15, and
 * between them four sections of second order (biquads), whose coefficients are in Q14. Sums have 32 bits.
 */
#include "rounds.h"

#define TAPS 32
#define SECTIONS 4
#define SAMPLES 2300
#define LIMIT 32767
#define INTEGRAL_LIMIT 100000

#define APART static __attribute__((noinline))

static short taps[TAPS], past[TAPS];
static unsigned at;

/* A low pass of Butterworth at a tenth of the rate, of gain 1: factors of the input and of its past, then of the output's past. */
static const int factors[5] = {1106, 2211, 1106, 18727, -6763};

struct section {
    int in[2], out[2];
};

static struct section sections[SECTIONS];
static int integral, error_before;

APART int fir(short sample)
{
    int sum = 0;
    past[at % TAPS] = sample;
    for (unsigned i = 0; i < TAPS; i++)
        sum += taps[i] * past[(at - i) % TAPS];
    at++;
    return sum >> 15;
}

APART int biquads(int value)
{
    for (struct section *section = sections; section != sections + SECTIONS; section++) {
        int sum = factors[0] * value + factors[1] * section->in[0] + factors[2] * section->in[1];
        sum += factors[3] * section->out[0] + factors[4] * section->out[1];
        section->in[1] = section->in[0];
        section->in[0] = value;
        section->out[1] = section->out[0];
        section->out[0] = value = sum >> 14;
    }
    return value;
}

static int within(int limit, int value)
{
    return value > limit ? limit : value < -limit ? -limit : value;
}

APART int pid(int error)
{
    int change = error - error_before;
    error_before = error;
    integral = within(INTEGRAL_LIMIT, integral + error);
    return within(LIMIT, (1200 * error + 30 * integral + 800 * change) >> 10);
}

static unsigned work(void)
{
    unsigned sum = 0;
    for (int i = 0; i < TAPS; i++)
        taps[i] = (short)(i < TAPS / 2 ? 64 * i : 64 * (TAPS - 1 - i));
    for (int sample = 0; sample < SAMPLES; sample++) {
        unsigned word = next_word();
        int value = biquads(fir((short)(word >> 16)));
        sum += (unsigned)pid(value - (short)word / 4);
    }
    return sum;
}
