/* A controller: it reads the rate in each of its slots, and sends a torque to the wheel. */
#include <stdio.h>
#include <xm.h>

#define GAIN 1.5
#define STEPS 6

void PartitionMain(void)
{
    double rate, torque;
    xm_u32_t flags;
    xm_s32_t step = 0;
    xm_s32_t rates = XM_create_sampling_port("rate", sizeof rate, XM_DESTINATION_PORT);
    xm_s32_t torques = XM_create_queuing_port("torque", 4, sizeof torque, XM_SOURCE_PORT);
    if (rates < 0 || torques < 0) {
        printf("control: no port, %d %d\n", rates, torques);
        XM_halt_partition(XM_PARTITION_SELF);
    }
    while (step < STEPS) {
        if (XM_read_sampling_message(rates, &rate, sizeof rate, &flags) > 0 && (flags & XM_COMM_MSG_VALID)) {
            torque = -GAIN * rate;
            if (XM_send_queuing_message(torques, &torque, sizeof torque) == XM_OK)
                step++;
        }
        XM_idle_self();
    }
    printf("control: %d torques\n", step);
}
