/*
 * The names, types and signatures of XtratuM 3 over xm.h, for applications that were written for it, as far as known.
 * docs/PORTING.md goes call by call: what is the same here, what differs, and what is absent.
 *
 * A program with it is linked with the C library (lib/link): it begins at PartitionMain, and printf is the library's.
 */
#ifndef XMCOMPAT_H
#define XMCOMPAT_H

#include <xm.h>

#ifdef __cplusplus
extern "C" {
#endif

/* Types. */
typedef unsigned char xm_u8_t;
typedef signed char xm_s8_t;
typedef unsigned short xm_u16_t;
typedef short xm_s16_t;
typedef unsigned int xm_u32_t;
typedef int xm_s32_t;
__extension__ typedef unsigned long long xm_u64_t;
__extension__ typedef long long xm_s64_t;
typedef xm_u32_t xmAddress_t;
typedef xm_u32_t xmSize_t;
typedef xm_s32_t xmSSize_t;
typedef xm_u32_t xmId_t;
typedef xm_time xmTime_t;

/* What calls answer. The numbers are those of xm.h. */
enum {
    XM_OK = 0,
    XM_UNKNOWN_HYPERCALL = XM_UNKNOWN_CALL,
    XM_INVALID_PARAM = XM_INVALID_PARAMETER,
    XM_PERM_ERROR = XM_NO_PERMISSION,
    XM_INVALID_CONFIG = XM_INVALID_CONFIGURATION,
    XM_OP_NOT_ALLOWED = XM_NOT_ALLOWED
};

/* Arguments. The numbers are those of xm.h. */
enum { XM_COLD_RESET = XM_COLD, XM_WARM_RESET = XM_WARM };
enum { XM_SOURCE_PORT = XM_SOURCE, XM_DESTINATION_PORT = XM_DESTINATION };
enum { XM_COMM_MSG_VALID = 1 };
#define XM_PARTITION_SELF ((xm_u32_t)XM_get_self())

/* States of a partition. */
enum {
    XM_STATUS_READY = XM_READY,
    XM_STATUS_IDLE = XM_IDLE,
    XM_STATUS_SUSPENDED = XM_SUSPENDED,
    XM_STATUS_HALTED = XM_HALTED
};

/* Extended virtual interrupts, and their traps. */
enum {
    XM_VT_EXT_HW_TIMER = XM_HW_TIMER,
    XM_VT_EXT_EXEC_TIMER = XM_EXEC_TIMER,
    XM_VT_EXT_SHUTDOWN = XM_SHUTDOWN,
    XM_VT_EXT_SAMPLING_PORT = XM_SAMPLING_PORT,
    XM_VT_EXT_QUEUING_PORT = XM_QUEUING_PORT,
    XM_VT_EXT_CYCLIC_SLOT_START = XM_SLOT_START,
    XM_VT_EXT_IPVI0 = XM_LINK,
    XM_VT_EXT_IPVI1,
    XM_VT_EXT_IPVI2,
    XM_VT_EXT_IPVI3,
    XM_VT_EXT_IPVI4,
    XM_VT_EXT_IPVI5,
    XM_VT_EXT_IPVI6,
    XM_VT_EXT_IPVI7
};
#define XAL_XMEXT_TRAP(interrupt) XM_INTERRUPT_TRAP(interrupt)

/* What calls write. */
typedef struct {
    xm_u32_t state; /* XM_STATUS_READY and so on */
    xm_u32_t resetCounter;
    xm_u32_t resetStatus;
    xmTime_t execClock;
} xmPartitionStatus_t;

typedef struct {
    xm_u32_t resetCounter;
    xm_u32_t noPartitions;
} xmSystemStatus_t;

typedef struct {
    xmTime_t switchTime; /* the start of the frame */
    xm_s32_t current;
    xm_s32_t next; /* as `current` where no other plan is asked for */
} xmPlanStatus_t;

typedef struct {
    xmTime_t timestamp; /* of the message; 0 for none */
    xm_u32_t lastMsgSize;
    xm_u32_t flags; /* XM_COMM_MSG_VALID, or 0 */
} xmSamplingPortStatus_t;

typedef struct {
    xm_u32_t noMsgs;
    xm_u32_t maxNoMsgs;
} xmQueuingPortStatus_t;

/* Of a trap handler: what was interrupted. What the handler changes here takes effect when it returns. */
typedef struct xm_trap trapCtxt_t;
typedef void (*trapHandler_t)(trapCtxt_t *context);

/* The application begins here; the partition halts where it returns. */
void PartitionMain(void);

/* Handles traps of a type in C; without a handler such a trap ends the program. */
xm_s32_t InstallTrapHandler(xm_s32_t type, trapHandler_t handler);

#define xprintf printf

XM_INLINE void HwSti(void)
{
    sparc_set_psr(XM_TRAPS_ENABLED);
}

XM_INLINE void HwCli(void)
{
    sparc_set_psr(0);
}

XM_INLINE xm_s32_t XM_suspend_self(void)
{
    return XM_suspend_partition(XM_PARTITION_SELF);
}

XM_INLINE xm_s32_t xmcompat_get_partition_status(xm_u32_t partition, xmPartitionStatus_t *status)
{
    struct xm_partition_status written;
    xm_s32_t result = XM_get_partition_status(partition, &written);
    if (result == XM_OK) {
        status->state = written.state;
        status->resetCounter = written.resets;
        status->resetStatus = written.reset_status;
        status->execClock = written.execution_clock;
    }
    return result;
}
#define XM_get_partition_status xmcompat_get_partition_status

XM_INLINE xm_s32_t xmcompat_get_system_status(xmSystemStatus_t *status)
{
    struct xm_system_status written;
    xm_s32_t result = XM_get_system_status(&written);
    if (result == XM_OK) {
        status->resetCounter = written.resets;
        status->noPartitions = written.partitions;
    }
    return result;
}
#define XM_get_system_status xmcompat_get_system_status

XM_INLINE xm_s32_t xmcompat_get_plan_status(xmPlanStatus_t *status)
{
    struct xm_plan_status written;
    xm_s32_t result = XM_get_plan_status(&written);
    if (result == XM_OK) {
        status->switchTime = written.frame_start;
        status->current = (xm_s32_t)written.plan;
        status->next = (xm_s32_t)(written.asked_plan == XM_NONE ? written.plan : written.asked_plan);
    }
    return result;
}
#define XM_get_plan_status xmcompat_get_plan_status

XM_INLINE xm_s32_t xmcompat_get_sampling_port_status(xm_u32_t port, xmSamplingPortStatus_t *status)
{
    struct xm_sampling_status written;
    xm_s32_t result = XM_get_sampling_port_status(port, &written);
    if (result == XM_OK) {
        status->timestamp = written.time;
        status->lastMsgSize = written.length;
        status->flags = written.valid != 0 ? XM_COMM_MSG_VALID : 0;
    }
    return result;
}
#define XM_get_sampling_port_status xmcompat_get_sampling_port_status

XM_INLINE xm_s32_t xmcompat_get_queuing_port_status(xm_u32_t port, xmQueuingPortStatus_t *status)
{
    struct xm_queuing_status written;
    xm_s32_t result = XM_get_queuing_port_status(port, &written);
    if (result == XM_OK) {
        status->noMsgs = written.messages;
        status->maxNoMsgs = written.most;
    }
    return result;
}
#define XM_get_queuing_port_status xmcompat_get_queuing_port_status

/* The interrupts of hardware are none of a partition's here: their mask has to be 0. */
XM_INLINE xm_s32_t xmcompat_set_irqmask(xm_u32_t hardware, xm_u32_t extended)
{
    return hardware != 0 ? XM_INVALID_PARAM : XM_set_irqmask(extended);
}
#define XM_set_irqmask xmcompat_set_irqmask

XM_INLINE xm_s32_t xmcompat_clear_irqmask(xm_u32_t hardware, xm_u32_t extended)
{
    return hardware != 0 ? XM_INVALID_PARAM : XM_clear_irqmask(extended);
}
#define XM_clear_irqmask xmcompat_clear_irqmask

XM_INLINE xm_s32_t XM_sparc_flush_regwin(void)
{
    return sparc_flush_regwin();
}

#ifdef __cplusplus
}
#endif

#endif
