/*
 * What the guests of these systems call, for the same C files as programs of this machine: a partition that was never reset,
 * whose input is the standard input. Where it waits, the timer's interrupt comes (TIMER); without a timer its next slot
 * comes, and after SLOTS of them the program ends.
 */
#ifndef NATIVE_SYSTEMS_H
#define NATIVE_SYSTEMS_H

#include "../../guests/native/xm.h"
#include <stdlib.h>

typedef unsigned xm_word;
typedef long long xm_time;

enum { XM_HW_CLOCK = 0, XM_HW_TIMER = 0, XM_TRAPS_ENABLED = 1 << 5 };
#define XM_INTERRUPT_TRAP(interrupt) (0xe0 + (interrupt))

struct xm_partition_status {
    xm_word state, resets, reset_status;
    xm_time execution_clock;
};

static inline int XM_get_partition_status(unsigned partition, struct xm_partition_status *status)
{
    (void)partition;
    *status = (struct xm_partition_status){0};
    return 0;
}

static inline int XM_read_input(xm_word *word)
{
    unsigned char bytes[4];
    if (fread(bytes, 1, sizeof bytes, stdin) != sizeof bytes)
        return -7;
    *word = (xm_word)bytes[0] << 24 | bytes[1] << 16 | bytes[2] << 8 | bytes[3];
    return 0;
}

#ifdef TIMER

struct xm_trap;
void handle_trap(unsigned type, struct xm_trap *trap);
static const char trap_entries[1];

#define sparc_set_tbr(table) ((void)(table))
#define sparc_set_psr(psr) ((void)(psr))
#define XM_clear_irqmask(interrupts) ((void)(interrupts))
#define XM_set_timer(clock, deadline, interval) ((void)(clock))
#define XM_get_time(clock, time) ((void)(*(time) = 0))
#define XM_trace_event(bits, bytes) ((void)(bytes))

static inline int XM_idle_self(void)
{
    handle_trap(XM_INTERRUPT_TRAP(XM_HW_TIMER), NULL);
    return 0;
}

#elif defined SLOTS

static inline int XM_idle_self(void)
{
    static unsigned slots;
    if (++slots == SLOTS)
        exit(0);
    return 0;
}

#endif

#endif
