/* The consumer: the sample, and at most two messages in each of its slots. */
#include <xm.h>
#include "lines.h"
#include "work.h"

#define MESSAGES_A_SLOT 2

static void read_sample(int port)
{
    unsigned level, valid;
    if (XM_read_sampling_message(port, &level, sizeof level, &valid) < 0) {
        put_text("no level");
    } else {
        put_text("level ");
        put_unsigned(level);
        put_text(valid ? " valid" : " stale");
    }
    print_line();
}

static void receive(int port)
{
    struct work work;
    for (unsigned i = 0; i < MESSAGES_A_SLOT; i++) {
        if (XM_receive_queuing_message(port, &work, sizeof work) < 0) {
            put_text("no message");
            print_line();
            break;
        }
        put_text("message ");
        put_unsigned(work.number);
        put_text(" square ");
        put_unsigned(work.square);
        print_line();
    }
}

int main(void)
{
    int queue = made(XM_create_queuing_port(QUEUE_NAME, QUEUE_MESSAGES, sizeof(struct work), XM_DESTINATION));
    int sample = made(XM_create_sampling_port(SAMPLE_NAME, sizeof(unsigned), XM_DESTINATION));
    for (;;) {
        read_sample(sample);
        receive(queue);
        XM_idle_self();
    }
}
