/* The producer: up to three messages in each of its slots, and a sample in every second one. */
#include <xm.h>
#include "lines.h"
#include "work.h"

#define MESSAGES 11
#define MESSAGES_A_SLOT 3

static void tell(const char *what, unsigned number, const char *more)
{
    put_text(what);
    put_unsigned(number);
    put_text(more);
    print_line();
}

/* Sends messages from this number on, as many as a slot has and the queue takes, and gives the next number. */
static unsigned send_from(int queue, unsigned number)
{
    for (unsigned sent = 0; sent < MESSAGES_A_SLOT && number <= MESSAGES; sent++) {
        struct work work = {number, number * number};
        if (XM_send_queuing_message(queue, &work, sizeof work) < 0) {
            tell("queue full: message ", number, " waits");
            break;
        }
        number++;
    }
    return number;
}

int main(void)
{
    int queue = made(XM_create_queuing_port(QUEUE_NAME, QUEUE_MESSAGES, sizeof(struct work), XM_SOURCE));
    int sample = made(XM_create_sampling_port(SAMPLE_NAME, sizeof(unsigned), XM_SOURCE));
    unsigned number = 1;
    for (unsigned slot = 0; number <= MESSAGES; slot++) {
        unsigned level = 100 + slot;
        if (slot % 2 == 0)
            XM_write_sampling_message(sample, &level, sizeof level);
        number = send_from(queue, number);
        if (number <= MESSAGES)
            XM_idle_self();
    }
    tell("all ", MESSAGES, " messages sent");
    return 0;
}
