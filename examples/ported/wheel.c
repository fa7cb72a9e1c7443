/* The reaction wheel, a system partition: it takes the torques, and says at the end how the others are. */
#include <stdio.h>
#include <xm.h>

#define STEPS 6

static const char *StateName(xm_u32_t state)
{
    return state == XM_STATUS_HALTED ? "halted" : state == XM_STATUS_IDLE ? "idle" : "ready";
}

void PartitionMain(void)
{
    double torque, speed = 0;
    xmPartitionStatus_t status;
    xm_s32_t steps = 0, length;
    xm_s32_t torques = XM_create_queuing_port("torque", 4, sizeof torque, XM_DESTINATION_PORT);
    if (torques < 0) {
        printf("wheel: no port, %d\n", torques);
        XM_halt_partition(XM_PARTITION_SELF);
    }
    while (steps < STEPS) {
        length = XM_receive_queuing_message(torques, &torque, sizeof torque);
        if (length == XM_NOT_AVAILABLE) {
            XM_idle_self();
            continue;
        }
        speed += torque;
        steps++;
        printf("wheel: torque %+.5f, speed %+.5f\n", torque, speed);
    }
    XM_idle_self();
    for (xm_u32_t partition = 0; partition < 2; partition++)
        if (XM_get_partition_status(partition, &status) == XM_OK)
            printf("wheel: partition %u is %s\n", partition, StateName(status.state));
}
