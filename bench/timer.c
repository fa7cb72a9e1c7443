/*
 * A workload with a timer, without end: the hardware timer interrupts it every 100 ticks, and it calls the hypervisor
 * for the time about every 50. Between the calls it counts in a table, and makes a checksum in a function of its own.
 *
 * About once in a million ticks it writes how many interrupts it took and how many calls for the time it made. The calls
 * that return from the interrupts (traps.S), and those that write, are not counted.
 */
#include <xm.h>
#include "lines.h"

#define TICKS_BETWEEN_INTERRUPTS 100
#define CALLS_BETWEEN_LINES 20000
#define SLOTS 256
#define BITS 2

extern const char traps[];

volatile unsigned interrupts;

/* Keeps the compiler from leaving work out. */
volatile unsigned result;

static long long now;

static unsigned seed = 2463534242;
static unsigned slots[SLOTS], most;

static unsigned next_word(void)
{
    seed ^= seed << 13;
    seed ^= seed >> 17;
    seed ^= seed << 5;
    return seed;
}

static __attribute__((noinline)) unsigned checksum(unsigned sum, unsigned word)
{
    sum ^= word;
    for (int bit = 0; bit < BITS; bit++)
        sum = sum & 1 ? sum >> 1 ^ 0xedb88320 : sum >> 1;
    return sum;
}

static unsigned work(unsigned sum)
{
    unsigned word = next_word();
    unsigned count = ++slots[(word ^ word >> 8) % SLOTS];
    if (count > most)
        most = count;
    return checksum(sum + word / 10 + count, word);
}

static void start_timer(void)
{
    sparc_set_tbr((xm_word)traps);
    XM_clear_irqmask(1 << 0);
    XM_set_timer(XM_HW_CLOCK, TICKS_BETWEEN_INTERRUPTS, TICKS_BETWEEN_INTERRUPTS);
    sparc_set_psr(1 << 5);
}

static void tell(unsigned calls)
{
    put_text("interrupts=");
    put_unsigned(interrupts);
    put_text(" calls=");
    put_unsigned(calls);
    print_line();
}

int main(void)
{
    unsigned sum = 0xffffffff, calls = 0;
    start_timer();
    for (;;) {
        for (unsigned i = 0; i < CALLS_BETWEEN_LINES; i++) {
            sum = work(sum);
            XM_get_time(XM_HW_CLOCK, &now);
        }
        calls += CALLS_BETWEEN_LINES;
        result = sum;
        tell(calls);
    }
}
