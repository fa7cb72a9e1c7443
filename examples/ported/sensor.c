/* A rate sensor: a timer interrupts it, and after each interrupt it writes a sample to its port. */
#include <irqs.h>
#include <math.h>
#include <stdio.h>
#include <xm.h>

#define PERIOD 2500
#define SAMPLES 8

static volatile xm_s32_t due;

static void SampleDue(trapCtxt_t *context)
{
    (void)context;
    due++;
}

void PartitionMain(void)
{
    xmTime_t now;
    xm_s32_t written = 0;
    xm_s32_t port = XM_create_sampling_port("rate", sizeof(double), XM_SOURCE_PORT);
    if (port < 0) {
        printf("sensor: no port, %d\n", port);
        XM_halt_partition(XM_PARTITION_SELF);
    }
    InstallTrapHandler(XAL_XMEXT_TRAP(XM_VT_EXT_HW_TIMER), SampleDue);
    HwSti();
    XM_clear_irqmask(0, 1 << XM_VT_EXT_HW_TIMER);
    XM_get_time(XM_HW_CLOCK, &now);
    XM_set_timer(XM_HW_CLOCK, now + PERIOD, PERIOD);
    while (written < SAMPLES) {
        if (written < due) {
            double rate = 0.02 * cos(0.4 * written);
            XM_write_sampling_message(port, &rate, sizeof rate);
            written++;
        } else {
            XM_idle_self();
        }
    }
    printf("sensor: %d samples\n", written);
}
