/* Sends what the imager hands over, and keeps house. */
#include <string.h>
#include <stdio.h>
#include <xm.h>
#include <irqs.h>

#define MAX 128

#define PRINT(...) do { \
        printf("[P%d] ", XM_PARTITION_SELF); \
        printf(__VA_ARGS__); \
} while (0)

struct house {
    xm_u32_t frames;
    xm_u32_t bytes;
    float ratio;
};

static volatile int pending;

void IpviHandler(trapCtxt_t *ctxt) {
    (void)ctxt;
    pending = 1;
}

void ExecHandler(trapCtxt_t *ctxt) {
    (void)ctxt;
    PRINT("5 ms of processor\n");
}

void PartitionMain(void) {
    static xm_u8_t buffer[MAX];
    struct house house;
    xmQueuingPortStatus_t queue;
    xm_s32_t lineDesc, houseDesc, size;

    memset(&house, 0, sizeof(house));
    lineDesc = XM_create_queuing_port("lines", 4, MAX, XM_DESTINATION_PORT);
    houseDesc = XM_create_sampling_port("house", sizeof(house), XM_SOURCE_PORT);
    if ((lineDesc < 0) || (houseDesc < 0)) {
        PRINT("error creating ports: %d %d\n", lineDesc, houseDesc);
        XM_halt_partition(XM_PARTITION_SELF);
    }
    InstallTrapHandler(XAL_XMEXT_TRAP(XM_VT_EXT_IPVI0), IpviHandler);
    InstallTrapHandler(XAL_XMEXT_TRAP(XM_VT_EXT_EXEC_TIMER), ExecHandler);
    HwSti();
    XM_clear_irqmask(0, (1 << XM_VT_EXT_IPVI0) | (1 << XM_VT_EXT_EXEC_TIMER));
    XM_set_timer(XM_EXEC_CLOCK, 5000LL, 0LL);
    while (1) {
        while (!pending)
            XM_idle_self();
        pending = 0;
        if (XM_get_queuing_port_status(lineDesc, &queue) != XM_OK)
            continue;
        while (queue.noMsgs--) {
            size = XM_receive_queuing_message(lineDesc, buffer, MAX);
            if (size < 0)
                break;
            house.frames++;
            house.bytes += size;
            house.ratio = 64.0f * house.frames / house.bytes;
        }
        XM_write_sampling_message(houseDesc, &house, sizeof(house));
    }
}
