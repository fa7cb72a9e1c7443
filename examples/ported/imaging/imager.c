/* A line camera: takes a line each period, compresses it, hands it to the downlink. */
#include <string.h>
#include <stdio.h>
#include <stdlib.h>
#include <xm.h>
#include <irqs.h>

#define LINE 64
#define PERIOD (20 * 1000LL)

#define PRINT(...) do { \
        printf("[P%d] ", XM_PARTITION_SELF); \
        printf(__VA_ARGS__); \
} while (0)

static volatile int due;
static xm_u8_t line[LINE], packed[2 * LINE];
static xm_u32_t seed = 1;

void TimerHandler(trapCtxt_t *ctxt) {
    (void)ctxt;
    due = 1;
}

static void TakeLine(xm_u32_t number) {
    xm_u32_t e;

    for (e = 0; e < LINE; e++) {
        seed = seed * 1103515245 + 12345;
        line[e] = (e + number) / 16 * 10 + ((seed >> 28) == 0);
    }
}

static xm_u32_t Pack(void) {
    xm_u32_t e, n = 0, run;

    for (e = 0; e < LINE; e += run) {
        for (run = 1; e + run < LINE && line[e + run] == line[e]; run++)
            ;
        packed[n++] = run;
        packed[n++] = line[e];
    }
    return n;
}

void PartitionMain(void) {
    xmPartitionStatus_t status;
    xm_s32_t lineDesc, modeDesc;
    xm_u32_t number, mode = 0, flags, size;
    struct { xm_u32_t opCode, zero; } event = {0, 0};
    xmTime_t now;

    if (XM_get_partition_status(XM_PARTITION_SELF, &status) == XM_OK)
        PRINT("imager starts, reset counter %d, status %d\n", status.resetCounter, status.resetStatus);
    lineDesc = XM_create_queuing_port("lines", 4, 2 * LINE, XM_SOURCE_PORT);
    modeDesc = XM_create_sampling_port("mode", sizeof(mode), XM_DESTINATION_PORT);
    if ((lineDesc < 0) || (modeDesc < 0)) {
        PRINT("error creating ports: %d %d\n", lineDesc, modeDesc);
        XM_halt_partition(XM_PARTITION_SELF);
    }
    InstallTrapHandler(XAL_XMEXT_TRAP(XM_VT_EXT_HW_TIMER), TimerHandler);
    HwSti();
    XM_clear_irqmask(0, (1 << XM_VT_EXT_HW_TIMER));
    XM_get_time(XM_HW_CLOCK, &now);
    XM_set_timer(XM_HW_CLOCK, now + PERIOD, PERIOD);
    for (number = 0; ; number++) {
        while (!due)
            XM_idle_self();
        due = 0;
        if (XM_read_sampling_message(modeDesc, &mode, sizeof(mode), &flags) < 0)
            mode = 0;
        TakeLine(number);
        size = Pack();
        event.opCode = number;
        XM_trace_event(1, &event);
        if (XM_send_queuing_message(lineDesc, packed, size) < 0)
            PRINT("queue full\n");
        XM_raise_ipvi(0);
        if (number == 2 && mode == 0)
            XM_hm_raise_event(number);
    }
}
