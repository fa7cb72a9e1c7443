/*
 * Traps of a program that has no handle_trap of its own. Those with a handler (xmcompat.h) are handled by it. Any other ends the
 * program, with the type of the trap as its status; the line of the report before that has the place.
 */
#include <unistd.h>
#include <xmcompat.h>

#define TYPES 256

static trapHandler_t handlers[TYPES];

xm_s32_t InstallTrapHandler(xm_s32_t type, trapHandler_t handler)
{
    if (type < 0 || type >= TYPES)
        return XM_INVALID_PARAM;
    handlers[type] = handler;
    return XM_OK;
}

void handle_trap(unsigned type, struct xm_trap *trap)
{
    if (handlers[type] == NULL)
        _exit((int)type);
    handlers[type](trap);
}
