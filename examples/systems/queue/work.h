/* What producer and consumer agree on; queue.xml says the same of the channels. */
#ifndef WORK_H
#define WORK_H

struct work {
    unsigned number, square;
};

#define QUEUE_NAME "work"
#define QUEUE_MESSAGES 4
#define SAMPLE_NAME "level"

/* A port that was made; without it the partition halts. */
static inline int made(int port)
{
    if (port < 0) {
        put_text("no port: ");
        put_signed(port);
        print_line();
        XM_halt_partition(XM_get_self());
    }
    return port;
}

#endif
