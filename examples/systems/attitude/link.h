/* What the four partitions of the attitude control say to one another. */
#ifndef LINK_H
#define LINK_H

/* The partitions. */
enum { FDIR = 0, GYRO = 1, CONTROL = 2, WHEEL = 3 };

/* The plans: the nominal one, maintenance, and the nominal one again, since plan 0 can't be asked for. */
enum { NOMINAL_PLAN = 0, MAINTENANCE_PLAN = 1, RESTORED_PLAN = 2 };

/* The status of a reset by which the gyro tests itself. */
enum { SELF_TEST = 1 };

/* What the gyro answers after its test. */
enum { TEST_PASSED = 1, TEST_FAILED = 2 };

/* The mode that the FDIR gives to the controller. */
enum { MODE_NOMINAL = 0, MODE_SAFE = 1 };

/* The rate of the spacecraft about its axis, in radians a second, and the number of the sample. */
struct rate_message {
    unsigned number;
    unsigned zero;
    double rate;
};

/* The torque that the wheel is to give, in newton metres, and the number of the step. */
struct torque_message {
    unsigned step;
    unsigned zero;
    double torque;
};

#endif
