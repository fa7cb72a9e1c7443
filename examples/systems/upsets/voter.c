/*
 * The voter: in each of its slots it prints the value on which two of the three replicas agree. It does the same steps whatever
 * they wrote, so its line comes in the same tick whether one of them was outvoted or none.
 */
#include <xm.h>
#include "lines.h"
#include "round.h"

static const char *const names[REPLICAS] = {"in1", "in2", "in3"};

/* The value of a result of this round; one of another round is a number that no value is. */
static unsigned vote_of(const struct result *result, unsigned round)
{
    return result->value ^ (result->round ^ round) << 20;
}

/* The bits that two of three have. Where two are equal it is what they are. */
static unsigned majority(unsigned a, unsigned b, unsigned c)
{
    return (a & b) | (a & c) | (b & c);
}

static void print_vote(unsigned round, const unsigned *votes)
{
    unsigned value = majority(votes[0], votes[1], votes[2]);
    begin_line(round);
    if ((votes[0] == value) + (votes[1] == value) + (votes[2] == value) >= 2)
        put_unsigned(value);
    else
        put_text("no two agree");
    print_line();
}

int main(void)
{
    int ports[REPLICAS];
    for (unsigned k = 0; k < REPLICAS; k++)
        ports[k] = made(XM_create_sampling_port(names[k], sizeof(struct result), XM_DESTINATION));
    for (;;) {
        unsigned round = round_now(), votes[REPLICAS];
        for (unsigned k = 0; k < REPLICAS; k++) {
            struct result result = {~0u, k};
            xm_word valid;
            int size = XM_read_sampling_message(ports[k], &result, sizeof result, &valid);
            (void)size; /* without a message the result is that of no round */
            votes[k] = vote_of(&result, round);
        }
        print_vote(round, votes);
        XM_idle_self();
    }
}
