/* Why the supervisor resets the sensor: the status that the reset has. Smaller numbers count the restarts. */
#ifndef RESTART_H
#define RESTART_H

enum { SENSOR = 1, MAINTENANCE_PLAN = 1, SELF_TEST = 100 };

#endif
