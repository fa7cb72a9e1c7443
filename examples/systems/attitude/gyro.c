/*
 * The gyro. In each slot it takes a word of the sensor and writes the rate to its port. A word that fails its check is dropped.
 *
 *   31      24 23    20 19   16 15                    0
 *  +----------+--------+-------+-----------------------+
 *  | number   | divide | check | counts                |
 *  +----------+--------+-------+-----------------------+
 *
 * `check` is the exclusive or of the seven other digits. The counts are those of 4000 / `divide` microseconds, with a sign. No
 * word of the sensor has the divider 0; if one comes nevertheless, the division traps, and the health table has the answer: a
 * warm reset. Ports have to be made again after it.
 */
#include <xm.h>
#include "lines.h"
#include "link.h"

/* Radians a second for one count in a thousand microseconds. */
#define RATE_OF_COUNT 2.0e-6
#define NOMINAL_MICROSECONDS 1000.0
#define MOST_MICROSECONDS 4000u

/* A word whose rate is known: 500 counts of 1000 microseconds. */
#define TEST_WORD 0x2a440000u
#define TEST_COUNTS 500u
#define TEST_RATE 1.0e-3

static unsigned check_of(xm_word word)
{
    unsigned check = 0;
    for (unsigned shift = 0; shift < 32; shift += 4)
        if (shift != 16)
            check ^= word >> shift & 15;
    return check;
}

static double rate_of(xm_word word)
{
    int counts = (short)(word & 0xffff);
    unsigned microseconds = MOST_MICROSECONDS / (word >> 20 & 15);
    return counts * RATE_OF_COUNT * (NOMINAL_MICROSECONDS / microseconds);
}

static void print_number(const char *what, unsigned number)
{
    put_text(what);
    put_unsigned(number);
    print_line();
}

static void test_and_wait(void)
{
    xm_word word = TEST_WORD | TEST_COUNTS;
    unsigned answer = rate_of(word) == TEST_RATE ? TEST_PASSED : TEST_FAILED;
    int port = XM_create_queuing_port("test", 2, sizeof answer, XM_SOURCE);
    if (port < 0 || XM_send_queuing_message((unsigned)port, &answer, sizeof answer) < 0)
        print_number("gyro: no answer, test ", answer);
    print_number("gyro: test ", answer);
    for (;;)
        XM_idle_self();
}

static void sample(unsigned port)
{
    xm_word word;
    struct rate_message message = {0, 0, 0};
    if (XM_read_input(&word) != 0)
        return;
    message.number = word >> 24;
    if (check_of(word) != (word >> 16 & 15)) {
        print_number("gyro: dropped word ", message.number);
        return;
    }
    message.rate = rate_of(word);
    XM_write_sampling_message(port, &message, sizeof message);
}

int main(void)
{
    struct xm_partition_status status;
    if (XM_get_partition_status(GYRO, &status) != 0)
        return 1;
    if (status.reset_status == SELF_TEST)
        test_and_wait();
    int port = XM_create_sampling_port("rate", sizeof(struct rate_message), XM_SOURCE);
    if (port < 0)
        return 1;
    print_number("gyro: start after resets ", status.resets);
    for (;;) {
        XM_idle_self();
        sample((unsigned)port);
    }
}
