/* The reaction wheel: it turns torques into its speed, and prints both, in millionths, for telemetry. */
#include <xm.h>
#include "lines.h"
#include "link.h"

#define STEP_SECONDS 0.25
#define INERTIA 0.0012
#define MOST_SPEED 400.0

static double speed = 52.0;

static void print_state(const struct torque_message *message)
{
    put_text("wheel: step ");
    put_unsigned(message->step);
    put_text(" torque ");
    put_signed((int)(message->torque * 1e6));
    put_text(" speed ");
    put_signed((int)(speed * 1e6));
    print_line();
}

static void turn(const struct torque_message *message)
{
    double next = speed - message->torque / INERTIA * STEP_SECONDS;
    if (next < MOST_SPEED && next > -MOST_SPEED)
        speed = next;
    print_state(message);
}

int main(void)
{
    struct torque_message message;
    int port = XM_create_queuing_port("torque", 4, sizeof message, XM_DESTINATION);
    if (port < 0)
        return 1;
    for (;;) {
        while (XM_receive_queuing_message((unsigned)port, &message, sizeof message) > 0)
            turn(&message);
        XM_idle_self();
    }
}
