/*
 * The controller. It integrates the angle from the rate and asks for the torque that brings both to zero. Without a fresh rate, and
 * in the safe mode, the torque is 0.
 */
#include <math.h>
#include <xm.h>
#include "link.h"

#define STEP_SECONDS 0.25
#define ANGLE_GAIN 0.3
#define RATE_GAIN 1.5
#define MOST_TORQUE 0.02

struct ports {
    unsigned rate, mode, torque;
};

static double angle;

static int is_safe(unsigned port)
{
    unsigned mode = MODE_NOMINAL;
    xm_word valid;
    return XM_read_sampling_message(port, &mode, sizeof mode, &valid) > 0 && mode == MODE_SAFE;
}

static double limited(double torque)
{
    return fabs(torque) > MOST_TORQUE ? copysign(MOST_TORQUE, torque) : torque;
}

static double torque_for(const struct ports *ports)
{
    struct rate_message message;
    xm_word valid;
    int safe = is_safe(ports->mode);
    if (XM_read_sampling_message(ports->rate, &message, sizeof message, &valid) < 0 || !valid)
        return 0;
    angle += message.rate * STEP_SECONDS;
    return safe ? 0 : limited(-ANGLE_GAIN * angle - RATE_GAIN * message.rate);
}

int main(void)
{
    int rate = XM_create_sampling_port("rate", sizeof(struct rate_message), XM_DESTINATION);
    int mode = XM_create_sampling_port("mode", sizeof(unsigned), XM_DESTINATION);
    int torque = XM_create_queuing_port("torque", 4, sizeof(struct torque_message), XM_SOURCE);
    if (rate < 0 || mode < 0 || torque < 0)
        return 1;
    struct ports ports = {(unsigned)rate, (unsigned)mode, (unsigned)torque};
    for (unsigned step = 1;; step++) {
        struct torque_message message = {step, 0, torque_for(&ports)};
        if (XM_send_queuing_message(ports.torque, &message, sizeof message) < 0)
            XM_hm_raise_event(step);
        XM_idle_self();
    }
}
