/*
 * A control task. The hardware timer interrupts it every 3 milliseconds, and each interrupt is a step of a controller that
 * brings a motor to a wanted speed. Each step begins with a trace entry: its number, and how many microseconds after its
 * deadline it was made. Between the steps a line is printed now and then, and the partition waits.
 */
#include <xm.h>
#include "lines.h"

#define PERIOD 3000
#define STEPS 20
#define STEPS_A_LINE 5
#define WANTED 400

struct state {
    unsigned step;
    int speed, throttle, sum;
};

static volatile struct state now, shown;

static void trace_step(unsigned step)
{
    xm_time time;
    XM_get_time(XM_HW_CLOCK, &time);
    unsigned entry[2] = {step, (unsigned)time - PERIOD * step};
    XM_trace_event(1, entry);
}

/* Proportional and integral; the motor takes an eighth of the way to the speed that the throttle is good for. */
static void control(void)
{
    int error = WANTED - now.speed;
    now.sum += error;
    now.throttle = error / 8 + now.sum / 32;
    now.speed += (4 * now.throttle - now.speed) / 8;
}

static void print_state(unsigned step, int speed, int throttle)
{
    put_text("step ");
    put_unsigned(step);
    put_text(" speed ");
    put_signed(speed);
    put_text(" throttle ");
    put_signed(throttle);
    print_line();
}

/* What the table of traps.S calls. It returns to where the interrupt came, by call 34. */
void handle_trap(unsigned type, struct xm_trap *trap)
{
    (void)trap;
    if (type != XM_INTERRUPT_TRAP(XM_HW_TIMER))
        return;
    now.step++;
    trace_step(now.step);
    control();
    if (now.step % STEPS_A_LINE == 0)
        shown = now;
}

int main(void)
{
    sparc_set_tbr((xm_word)trap_entries);
    XM_clear_irqmask(1 << XM_HW_TIMER);
    XM_set_timer(XM_HW_CLOCK, PERIOD, PERIOD);
    sparc_set_psr(XM_TRAPS_ENABLED);
    for (unsigned printed = 0; printed < STEPS;) {
        XM_idle_self();
        if (shown.step != printed) {
            printed = shown.step;
            print_state(printed, shown.speed, shown.throttle);
        }
    }
    return 0;
}
