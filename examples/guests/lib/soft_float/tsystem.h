/* The headers that a routine of libgcc uses. */
#include <float.h>
#include <stdarg.h>
#include <stddef.h>

extern void abort(void) __attribute__((noreturn));
