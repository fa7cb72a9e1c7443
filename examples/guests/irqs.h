/* The header of traps and interrupts of XtratuM's library for partitions: xmcompat.h has what is there of it. */
#include <xmcompat.h>
