/* System partition: health of the others, operating modes. */
#include <string.h>
#include <stdio.h>
#include <xm.h>

#define IMAGER   1
#define DOWNLINK 2
#define MAX_FAILURES 2

#define PRINT(...) do { \
        printf("[P%d] ", XM_PARTITION_SELF); \
        printf(__VA_ARGS__); \
} while (0)

struct house {
    xm_u32_t frames;
    xm_u32_t bytes;
    float ratio;
};

static xm_s32_t houseDesc, modeDesc;
static xm_u32_t failures;

/* The numbers of the entries to be read next. */
#define PARTITIONS 3
static xm_u32_t next[PARTITIONS], nextTrace;

static void PrintLog(xm_u32_t id, struct xm_health_entry *log) {
    PRINT("HM: event %d of partition %d at %lld\n", log->event, id, log->time);
    if (id == IMAGER)
        failures++;
}

static void ReadHealthMonitor(void) {
    struct xm_counts counts;
    struct xm_health_entry entry;

    for (xm_u32_t partition = 0; partition < PARTITIONS; partition++) {
        if (XM_hm_status(partition, &counts) != XM_OK)
            continue;
        if (next[partition] < counts.first)
            next[partition] = counts.first;
        for (; next[partition] < counts.next; next[partition]++)
            if (XM_hm_read(partition, next[partition], &entry) == XM_OK)
                PrintLog(partition, &entry);
    }
}

static void ReadTraces(xm_u32_t partition) {
    struct xm_counts counts;
    struct xm_trace_entry entry;
    xm_u32_t number;

    if (XM_trace_status(partition, &counts) != XM_OK)
        return;
    if (nextTrace < counts.first)
        nextTrace = counts.first;
    for (; nextTrace < counts.next; nextTrace++)
        if (XM_trace_read(partition, nextTrace, &entry) == XM_OK) {
            memcpy(&number, entry.bytes, sizeof number);
            PRINT("trace: opcode %x at %lld\n", number, entry.time);
        }
}

void PartitionMain(void) {
    struct house house;
    xmPartitionStatus_t status;
    xmPlanStatus_t plan;
    xm_u32_t flags, planBefore, mode = 0;
    int done = 0;

    houseDesc = XM_create_sampling_port("house", sizeof(struct house), XM_DESTINATION_PORT);
    modeDesc = XM_create_sampling_port("mode", sizeof(mode), XM_SOURCE_PORT);
    if ((houseDesc < 0) || (modeDesc < 0)) {
        PRINT("error creating ports: %d %d\n", houseDesc, modeDesc);
        XM_halt_partition(XM_PARTITION_SELF);
    }
    XM_write_sampling_message(modeDesc, &mode, sizeof(mode));
    while (!done) {
        XM_idle_self();
        ReadHealthMonitor();
        ReadTraces(IMAGER);
        if (XM_get_partition_status(IMAGER, &status) != XM_OK)
            continue;
        if (status.state == XM_STATUS_HALTED && failures < MAX_FAILURES) {
            PRINT("imager is halted, cold reset\n");
            XM_reset_partition(IMAGER, XM_COLD_RESET, failures);
        } else if (failures >= MAX_FAILURES && mode == 0) {
            mode = 1;
            XM_write_sampling_message(modeDesc, &mode, sizeof(mode));
            XM_switch_sched_plan(1, &planBefore);
            PRINT("too many failures, plan 1\n");
        }
        if (XM_read_sampling_message(houseDesc, &house, sizeof(house), &flags) > 0 && (flags & XM_COMM_MSG_VALID)) {
            PRINT("downlink: %d frames, %d bytes, ratio %.2f\n", house.frames, house.bytes, house.ratio);
            done = house.frames >= 8;
        }
    }
    if (XM_get_plan_status(&plan) == XM_OK)
        PRINT("plan %d\n", plan.current);
    XM_halt_system();
}
