/*
 * The hypervisor for guests in C: the calls as inline functions, what they write as structures, and the numbers that have
 * names. For assembly it has the macros of a table of traps. docs/XM_H.md is the page of it, docs/HYPERCALLS.md says what
 * each call tests and does.
 */
#ifndef XM_H
#define XM_H

#ifdef __ASSEMBLER__

/* Begins a table of traps of that name, at a multiple of 4096, in the section .text.traps. */
        .macro  trap_table name
        .section .text.traps, "ax"
        .balign 4096
        .global \name
\name:
        .endm

/* The instructions after it, four at most, stand at the table's entry of a type. Types come in rising order. */
        .macro  at_trap table, type
        .org    \table + 16 * \type
        .endm

/* Back from a trap, as the locals 0 to 2 of this window say (call 34). */
        .macro  return_from_trap
        mov     34, %o0
        ta      0x70
        .endm

#else

#ifdef __cplusplus
extern "C" {
#endif

/* For C of any year, and C++. */
#define XM_INLINE static __inline__
#define XM_HAS_SIZE(structure, size) typedef char structure##_has_its_size[sizeof(struct structure) == (size) ? 1 : -1]

/* Of a call whose result a guest has to look at: the compiler warns where it does not. */
#define XM_RESULT_MATTERS __attribute__((warn_unused_result))

/* The numbers. */
enum {
    XM_NR_get_self = 1,
    XM_NR_halt_partition = 2,
    XM_NR_reset_partition = 3,
    XM_NR_suspend_partition = 4,
    XM_NR_resume_partition = 5,
    XM_NR_shutdown_partition = 6,
    XM_NR_idle_self = 7,
    XM_NR_get_partition_status = 8,
    XM_NR_halt_system = 9,
    XM_NR_reset_system = 10,
    XM_NR_get_system_status = 11,
    XM_NR_get_time = 12,
    XM_NR_set_timer = 13,
    XM_NR_switch_sched_plan = 14,
    XM_NR_get_plan_status = 15,
    XM_NR_create_sampling_port = 16,
    XM_NR_write_sampling_message = 17,
    XM_NR_read_sampling_message = 18,
    XM_NR_get_sampling_port_status = 19,
    XM_NR_create_queuing_port = 20,
    XM_NR_send_queuing_message = 21,
    XM_NR_receive_queuing_message = 22,
    XM_NR_get_queuing_port_status = 23,
    XM_NR_trace_event = 24,
    XM_NR_trace_read = 25,
    XM_NR_trace_status = 26,
    XM_NR_hm_raise_event = 27,
    XM_NR_hm_read = 28,
    XM_NR_hm_status = 29,
    XM_NR_set_irqmask = 30,
    XM_NR_clear_irqmask = 31,
    XM_NR_write_console = 32,
    XM_NR_read_input = 33,
    XM_NR_sparc_iret = 34,
    XM_NR_sparc_set_psr = 35,
    XM_NR_sparc_set_tbr = 36,
    XM_NR_sparc_flush_regwin = 37,
    XM_NR_raise_ipvi = 38
};

/* Results; 0 or more is done. */
enum {
    XM_NO_ACTION = -1,
    XM_UNKNOWN_CALL = -2,
    XM_INVALID_PARAMETER = -3,
    XM_NO_PERMISSION = -4,
    XM_INVALID_CONFIGURATION = -5,
    XM_INVALID_MODE = -6,
    XM_NOT_AVAILABLE = -7,
    XM_NOT_ALLOWED = -8
};

/* Arguments that have names. */
enum { XM_COLD = 0, XM_WARM = 1 };
enum { XM_HW_CLOCK = 0, XM_EXEC_CLOCK = 1 };
enum { XM_SOURCE = 0, XM_DESTINATION = 1 };

/* The most bytes of one console call. */
enum { XM_CONSOLE_BYTES = 1024 };

/* Virtual interrupts, as bits 1 << n of a mask, and the trap type of each. */
enum {
    XM_HW_TIMER = 0,
    XM_EXEC_TIMER = 1,
    XM_SHUTDOWN = 2,
    XM_SAMPLING_PORT = 3,
    XM_QUEUING_PORT = 4,
    XM_SLOT_START = 5,
    XM_LINK = 8 /* link n brings XM_LINK + n */
};
#define XM_INTERRUPT_TRAP(interrupt) (0xe0 + (interrupt))

/* The bit of sparc_set_psr that enables traps. */
enum { XM_TRAPS_ENABLED = 1 << 5 };

/* Health events and actions, by their numbers. */
enum {
    XM_HM_EV_PARTITION_ERROR = 0,
    XM_HM_EV_MEM_PROTECTION = 1,
    XM_HM_EV_UNEXPECTED_TRAP = 2,
    XM_HM_EV_SPARC_ILLEGAL_INSTRUCTION = 3,
    XM_HM_EV_SPARC_PRIVILEGED_INSTRUCTION = 4,
    XM_HM_EV_SPARC_FP_DISABLED = 5,
    XM_HM_EV_SPARC_CP_DISABLED = 6,
    XM_HM_EV_SPARC_ADDRESS_NOT_ALIGNED = 7,
    XM_HM_EV_SPARC_TAG_OVERFLOW = 8,
    XM_HM_EV_SPARC_DIVIDE_EXCEPTION = 9,
    XM_HM_EV_SPARC_INSTR_ACCESS = 10,
    XM_HM_EV_SPARC_DATA_ACCESS = 11
};
enum {
    XM_HM_AC_IGNORE = 0,
    XM_HM_AC_SHUTDOWN = 1,
    XM_HM_AC_PARTITION_COLD_RESET = 2,
    XM_HM_AC_PARTITION_WARM_RESET = 3,
    XM_HM_AC_SUSPEND = 4,
    XM_HM_AC_HALT = 5,
    XM_HM_AC_PROPAGATE = 6,
    XM_HM_AC_HYPERVISOR_COLD_RESET = 7,
    XM_HM_AC_HYPERVISOR_WARM_RESET = 8,
    XM_HM_AC_HYPERVISOR_HALT = 9,
    XM_HM_AC_SWITCH_TO_MAINTENANCE = 10
};

typedef unsigned int xm_word;
__extension__ typedef long long xm_time; /* microseconds; a tick is one */

/* What calls write. Numbers of 8 bytes stand at multiples of 4. */
#define XM_WRITTEN __attribute__((packed, aligned(4)))

enum xm_state { XM_READY = 0, XM_IDLE = 1, XM_SUSPENDED = 2, XM_HALTED = 3 };

struct xm_partition_status {
    xm_word state; /* enum xm_state */
    xm_word resets;
    xm_word reset_status;
    xm_time execution_clock;
} XM_WRITTEN;

struct xm_system_status {
    xm_word resets;
    xm_word partitions;
} XM_WRITTEN;

#define XM_NONE 0xffffffffu

struct xm_plan_status {
    xm_time frame_start;
    xm_word plan;
    xm_word asked_plan; /* XM_NONE where none is asked for */
    xm_word slot;
} XM_WRITTEN;

struct xm_sampling_status {
    xm_time time; /* of the message; 0 for none */
    xm_word length;
    xm_word valid;
} XM_WRITTEN;

struct xm_queuing_status {
    xm_word messages;
    xm_word most;
} XM_WRITTEN;

struct xm_trace_entry {
    xm_time time;
    xm_word bits;
    xm_word number;
    unsigned char bytes[8];
} XM_WRITTEN;

struct xm_health_entry {
    xm_time time;
    xm_word number;
    unsigned char event;
    unsigned char action;
    unsigned short zero;
    xm_word word; /* the program counter, or the code of XM_hm_raise_event */
} XM_WRITTEN;

/* Of traces or of the health log: the entries from `first` on and before `next` are kept. */
struct xm_counts {
    xm_word first;
    xm_word next;
} XM_WRITTEN;

XM_HAS_SIZE(xm_partition_status, 20);
XM_HAS_SIZE(xm_system_status, 8);
XM_HAS_SIZE(xm_plan_status, 20);
XM_HAS_SIZE(xm_sampling_status, 16);
XM_HAS_SIZE(xm_queuing_status, 8);
XM_HAS_SIZE(xm_trace_entry, 24);
XM_HAS_SIZE(xm_health_entry, 20);
XM_HAS_SIZE(xm_counts, 8);

/* The state that a trap interrupted, for handle_trap (traps.S). What the handler changes here the return takes. */
struct xm_trap {
    xm_word psr; /* condition codes in bits 23 to 20, XM_TRAPS_ENABLED */
    xm_word pc;
    xm_word npc;
};

/* The table of traps of traps.S, and the function that it calls, which whoever links it has. */
extern const char trap_entries[];
void handle_trap(unsigned type, struct xm_trap *trap);

/* A call changes %o0 and what it writes to memory, and no other register. */
XM_INLINE int xm_call(xm_word number, xm_word a, xm_word b, xm_word c, xm_word d, xm_word e)
{
    register xm_word o0 __asm__("o0") = number;
    register xm_word o1 __asm__("o1") = a;
    register xm_word o2 __asm__("o2") = b;
    register xm_word o3 __asm__("o3") = c;
    register xm_word o4 __asm__("o4") = d;
    register xm_word o5 __asm__("o5") = e;
    __asm__ volatile("ta 0x70" : "+r"(o0) : "r"(o1), "r"(o2), "r"(o3), "r"(o4), "r"(o5) : "cc", "memory");
    return (int)o0;
}

XM_INLINE int xm_call_0(xm_word number)
{
    register xm_word o0 __asm__("o0") = number;
    __asm__ volatile("ta 0x70" : "+r"(o0) : : "cc", "memory");
    return (int)o0;
}

XM_INLINE int xm_call_1(xm_word number, xm_word a)
{
    register xm_word o0 __asm__("o0") = number;
    register xm_word o1 __asm__("o1") = a;
    __asm__ volatile("ta 0x70" : "+r"(o0) : "r"(o1) : "cc", "memory");
    return (int)o0;
}

XM_INLINE int xm_call_2(xm_word number, xm_word a, xm_word b)
{
    register xm_word o0 __asm__("o0") = number;
    register xm_word o1 __asm__("o1") = a;
    register xm_word o2 __asm__("o2") = b;
    __asm__ volatile("ta 0x70" : "+r"(o0) : "r"(o1), "r"(o2) : "cc", "memory");
    return (int)o0;
}

XM_INLINE int xm_call_3(xm_word number, xm_word a, xm_word b, xm_word c)
{
    register xm_word o0 __asm__("o0") = number;
    register xm_word o1 __asm__("o1") = a;
    register xm_word o2 __asm__("o2") = b;
    register xm_word o3 __asm__("o3") = c;
    __asm__ volatile("ta 0x70" : "+r"(o0) : "r"(o1), "r"(o2), "r"(o3) : "cc", "memory");
    return (int)o0;
}

XM_INLINE int xm_call_4(xm_word number, xm_word a, xm_word b, xm_word c, xm_word d)
{
    register xm_word o0 __asm__("o0") = number;
    register xm_word o1 __asm__("o1") = a;
    register xm_word o2 __asm__("o2") = b;
    register xm_word o3 __asm__("o3") = c;
    register xm_word o4 __asm__("o4") = d;
    __asm__ volatile("ta 0x70" : "+r"(o0) : "r"(o1), "r"(o2), "r"(o3), "r"(o4) : "cc", "memory");
    return (int)o0;
}

/* Partitions and the system. */

XM_INLINE int XM_get_self(void)
{
    return xm_call_0(XM_NR_get_self);
}

/* Halts a partition. Of its own number it does not come back. */
XM_INLINE int XM_halt_partition(unsigned partition)
{
    return xm_call_1(XM_NR_halt_partition, partition);
}

XM_INLINE int XM_reset_partition(unsigned partition, unsigned mode, unsigned status)
{
    return xm_call_3(XM_NR_reset_partition, partition, mode, status);
}

XM_INLINE int XM_suspend_partition(unsigned partition)
{
    return xm_call_1(XM_NR_suspend_partition, partition);
}

XM_INLINE int XM_resume_partition(unsigned partition)
{
    return xm_call_1(XM_NR_resume_partition, partition);
}

XM_INLINE int XM_shutdown_partition(unsigned partition)
{
    return xm_call_1(XM_NR_shutdown_partition, partition);
}

XM_INLINE int XM_idle_self(void)
{
    return xm_call_0(XM_NR_idle_self);
}

XM_INLINE int XM_get_partition_status(unsigned partition, struct xm_partition_status *status)
{
    return xm_call_2(XM_NR_get_partition_status, partition, (xm_word)status);
}

XM_INLINE int XM_halt_system(void)
{
    return xm_call_0(XM_NR_halt_system);
}

XM_INLINE int XM_reset_system(unsigned mode)
{
    return xm_call_1(XM_NR_reset_system, mode);
}

XM_RESULT_MATTERS XM_INLINE int XM_get_system_status(struct xm_system_status *status)
{
    return xm_call_1(XM_NR_get_system_status, (xm_word)status);
}

/* Clocks, timers and plans. */

XM_INLINE int XM_get_time(unsigned clock, xm_time *time)
{
    return xm_call_2(XM_NR_get_time, clock, (xm_word)time);
}

XM_INLINE int XM_set_timer(unsigned clock, xm_time deadline, xm_time interval)
{
    return xm_call(XM_NR_set_timer, clock, (xm_word)(deadline >> 32), (xm_word)deadline,
        (xm_word)(interval >> 32), (xm_word)interval);
}

XM_INLINE int XM_switch_sched_plan(unsigned plan, xm_word *current)
{
    return xm_call_2(XM_NR_switch_sched_plan, plan, (xm_word)current);
}

XM_RESULT_MATTERS XM_INLINE int XM_get_plan_status(struct xm_plan_status *status)
{
    return xm_call_1(XM_NR_get_plan_status, (xm_word)status);
}

/* Ports. A name ends with a zero byte, within 32 bytes. */

XM_RESULT_MATTERS XM_INLINE int XM_create_sampling_port(const char *name, unsigned length, unsigned way)
{
    return xm_call_3(XM_NR_create_sampling_port, (xm_word)name, length, way);
}

XM_INLINE int XM_write_sampling_message(unsigned port, const void *message, unsigned size)
{
    return xm_call_3(XM_NR_write_sampling_message, port, (xm_word)message, size);
}

XM_RESULT_MATTERS XM_INLINE int XM_read_sampling_message(unsigned port, void *message, unsigned size, xm_word *valid)
{
    return xm_call_4(XM_NR_read_sampling_message, port, (xm_word)message, size, (xm_word)valid);
}

XM_RESULT_MATTERS XM_INLINE int XM_get_sampling_port_status(unsigned port, struct xm_sampling_status *status)
{
    return xm_call_2(XM_NR_get_sampling_port_status, port, (xm_word)status);
}

XM_RESULT_MATTERS XM_INLINE int XM_create_queuing_port(const char *name, unsigned messages, unsigned length, unsigned way)
{
    return xm_call_4(XM_NR_create_queuing_port, (xm_word)name, messages, length, way);
}

XM_RESULT_MATTERS XM_INLINE int XM_send_queuing_message(unsigned port, const void *message, unsigned size)
{
    return xm_call_3(XM_NR_send_queuing_message, port, (xm_word)message, size);
}

XM_RESULT_MATTERS XM_INLINE int XM_receive_queuing_message(unsigned port, void *message, unsigned size)
{
    return xm_call_3(XM_NR_receive_queuing_message, port, (xm_word)message, size);
}

XM_RESULT_MATTERS XM_INLINE int XM_get_queuing_port_status(unsigned port, struct xm_queuing_status *status)
{
    return xm_call_2(XM_NR_get_queuing_port_status, port, (xm_word)status);
}

/* Traces and the health log. */

/* Reads 8 bytes. */
XM_INLINE int XM_trace_event(unsigned bits, const void *bytes)
{
    return xm_call_2(XM_NR_trace_event, bits, (xm_word)bytes);
}

XM_RESULT_MATTERS XM_INLINE int XM_trace_read(unsigned partition, unsigned number, struct xm_trace_entry *entry)
{
    return xm_call_3(XM_NR_trace_read, partition, number, (xm_word)entry);
}

XM_RESULT_MATTERS XM_INLINE int XM_trace_status(unsigned partition, struct xm_counts *counts)
{
    return xm_call_2(XM_NR_trace_status, partition, (xm_word)counts);
}

XM_INLINE int XM_hm_raise_event(unsigned word)
{
    return xm_call_1(XM_NR_hm_raise_event, word);
}

XM_RESULT_MATTERS XM_INLINE int XM_hm_read(unsigned partition, unsigned number, struct xm_health_entry *entry)
{
    return xm_call_3(XM_NR_hm_read, partition, number, (xm_word)entry);
}

XM_RESULT_MATTERS XM_INLINE int XM_hm_status(unsigned partition, struct xm_counts *counts)
{
    return xm_call_2(XM_NR_hm_status, partition, (xm_word)counts);
}

/* Interrupts, the console, input and the processor. */

XM_INLINE int XM_set_irqmask(unsigned interrupts)
{
    return xm_call_1(XM_NR_set_irqmask, interrupts);
}

XM_INLINE int XM_clear_irqmask(unsigned interrupts)
{
    return xm_call_1(XM_NR_clear_irqmask, interrupts);
}

/* Writes bytes to the console, at most XM_CONSOLE_BYTES of them, and gives how many. */
XM_INLINE int XM_write_console(const char *text, unsigned size)
{
    return xm_call_2(XM_NR_write_console, (xm_word)text, size);
}

XM_RESULT_MATTERS XM_INLINE int XM_read_input(xm_word *word)
{
    return xm_call_1(XM_NR_read_input, (xm_word)word);
}

/* Back from a trap, as the locals of this window say. Handlers in assembly end with return_from_trap. */
XM_INLINE int sparc_iret(void)
{
    return xm_call_0(XM_NR_sparc_iret);
}

XM_INLINE int sparc_set_psr(unsigned psr)
{
    return xm_call_1(XM_NR_sparc_set_psr, psr);
}

XM_INLINE int sparc_set_tbr(unsigned table)
{
    return xm_call_1(XM_NR_sparc_set_tbr, table);
}

/* Spills all windows but this one to their stacks. */
XM_INLINE int sparc_flush_regwin(void)
{
    return xm_call_0(XM_NR_sparc_flush_regwin);
}

XM_INLINE int XM_raise_ipvi(unsigned link)
{
    return xm_call_1(XM_NR_raise_ipvi, link);
}

#ifdef __cplusplus
}
#endif

#endif /* __ASSEMBLER__ */

#endif
