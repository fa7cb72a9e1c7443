/* What the replicas, the voter and the scrubber agree on; upsets.xml says the same of the frame and the channels. */
#ifndef ROUND_H
#define ROUND_H

#define FRAME 5000
#define REPLICAS 3

struct result {
    unsigned round, value;
};

/* A round is a frame, and the clock says which. So a partition that was reset knows it, too. */
static inline unsigned round_now(void)
{
    xm_time now = 0;
    XM_get_time(XM_HW_CLOCK, &now);
    return (unsigned)now / FRAME;
}

static UNUSED void begin_line(unsigned round)
{
    put_text("round ");
    put_unsigned(round);
    put_text(": ");
}

/* A port that was made; without it the partition halts. */
static UNUSED int made(int port)
{
    if (port < 0) {
        put_text("no port: ");
        put_signed(port);
        print_line();
        XM_halt_partition(XM_get_self());
    }
    return port;
}

#endif
