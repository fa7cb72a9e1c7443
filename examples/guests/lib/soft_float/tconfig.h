/* What gcc's own configuration says, for a routine of libgcc. */
#define IN_GCC 1
