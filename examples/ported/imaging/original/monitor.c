/* System partition: health of the others, operating modes. */
#include <string.h>
#include <stdio.h>
#include <xm.h>

#define IMAGER   1
#define DOWNLINK 2
#define MAX_FAILURES 2

#define PRINT(...) do { \
        printf("[P%d] ", XM_PARTITION_SELF); \
        printf(__VA_ARGS__); \
} while (0)

struct house {
    xm_u32_t frames;
    xm_u32_t bytes;
    float ratio;
};

static xm_s32_t houseDesc, modeDesc;
static xm_u32_t failures;

static void PrintLog(xmHmLog_t *log) {
    xm_u32_t event = (log->opCode & HMLOG_OPCODE_EVENT_MASK) >> HMLOG_OPCODE_EVENT_BIT;
    xm_u32_t id = (log->opCode & HMLOG_OPCODE_MODID_MASK) >> HMLOG_OPCODE_MODID_BIT;

    PRINT("HM: event %d of partition %d at %lld\n", event, id, log->timestamp);
    if (id == IMAGER)
        failures++;
}

static void ReadHealthMonitor(void) {
    xmHmStatus_t hmStatus;
    xmHmLog_t log;

    XM_hm_status(&hmStatus);
    while (XM_hm_read(&log) > 0)
        PrintLog(&log);
}

static void ReadTraces(xm_s32_t traceDesc) {
    xmTraceEvent_t event;

    while (XM_trace_read(traceDesc, &event) > 0)
        PRINT("trace: opcode %x at %lld\n", event.opCode, event.timestamp);
}

void PartitionMain(void) {
    struct house house;
    xmPartitionStatus_t status;
    xmPlanStatus_t plan;
    xm_u32_t flags, planBefore, mode = 0;
    xm_s32_t traceDesc;
    int done = 0;

    houseDesc = XM_create_sampling_port("house", sizeof(struct house), XM_DESTINATION_PORT);
    modeDesc = XM_create_sampling_port("mode", sizeof(mode), XM_SOURCE_PORT);
    if ((houseDesc < 0) || (modeDesc < 0)) {
        PRINT("error creating ports: %d %d\n", houseDesc, modeDesc);
        XM_halt_partition(XM_PARTITION_SELF);
    }
    XM_hm_open();
    traceDesc = XM_trace_open(IMAGER);
    XM_write_sampling_message(modeDesc, &mode, sizeof(mode));
    while (!done) {
        XM_idle_self();
        ReadHealthMonitor();
        ReadTraces(traceDesc);
        XM_get_partition_status(IMAGER, &status);
        if (status.state == XM_STATUS_HALTED && failures < MAX_FAILURES) {
            PRINT("imager is halted, cold reset\n");
            XM_reset_partition(IMAGER, XM_COLD_RESET, failures);
        } else if (failures >= MAX_FAILURES && mode == 0) {
            mode = 1;
            XM_write_sampling_message(modeDesc, &mode, sizeof(mode));
            XM_switch_sched_plan(1, &planBefore);
            PRINT("too many failures, plan 1\n");
        }
        if (XM_read_sampling_message(houseDesc, &house, sizeof(house), &flags) > 0 && (flags & XM_COMM_MSG_VALID)) {
            PRINT("downlink: %d frames, %d bytes, ratio %.2f\n", house.frames, house.bytes, house.ratio);
            done = house.frames >= 8;
        }
    }
    XM_get_plan_status(&plan);
    PRINT("plan %d\n", plan.current);
    XM_halt_system();
}
